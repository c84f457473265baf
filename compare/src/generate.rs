//! Seeded logs: sensible traffic, out-of-turn events, wrong numbers and
//! damaged lines, with stamps or without.
//!
//! The generator runs the model along with the log, so it knows which boards
//! exist, what message is open and which register is pointed to, and plans
//! its next lines accordingly.

#[cfg(test)]
mod situations;
mod stamps;
mod wear;

use crate::model::{
    Blinker, Chip, Driver, Event, Message, Phase, INPUT, MAX_COUNT, MAX_DEVICES, MODE1, MODE2,
    PWM0, SLEEP,
};
use crate::replay::Replay;
use crate::text;
use std::collections::VecDeque;

/// A small pseudo-random number generator (splitmix64).
pub struct Random(u64);

impl Random {
    pub fn new(seed: u64) -> Random {
        Random(seed)
    }

    fn next_number(&mut self) -> u64 {
        self.0 = self.0.wrapping_add(0x9E37_79B9_7F4A_7C15);
        let mut z = self.0;
        z = (z ^ z >> 30).wrapping_mul(0xBF58_476D_1CE4_E5B9);
        z = (z ^ z >> 27).wrapping_mul(0x94D0_49BB_1331_11EB);
        z ^ z >> 31
    }

    /// A number below n, which must not be 0.
    pub fn below(&mut self, n: u64) -> u64 {
        self.next_number() % n
    }

    pub fn index(&mut self, length: usize) -> usize {
        self.below(length as u64) as usize
    }

    pub fn chance(&mut self, percent: u64) -> bool {
        self.below(100) < percent
    }

    pub fn pick<'a, T>(&mut self, items: &'a [T]) -> &'a T {
        &items[self.index(items.len())]
    }

    pub fn byte(&mut self) -> u8 {
        self.below(256) as u8
    }
}

/// A log of about `lines` lines, of which about `damage` percent are out of
/// turn, wrong or damaged.
pub fn log(seed: u64, lines: usize, damage: u64) -> Vec<u8> {
    Generator::new(seed, damage, false).log(lines)
}

/// The same with stamps: another log, not the plain one with stamps before
/// its lines.
pub fn stamped_log(seed: u64, lines: usize, damage: u64) -> Vec<u8> {
    Generator::new(seed, damage, true).log(lines)
}

/// A planned line, worked out when its turn comes.
#[derive(Clone, Copy)]
enum Step {
    Event(Event),
    /// A byte that suits the register pointed to.
    Data,
    /// A wait of the device at a position.
    Wait(usize),
    /// A wait of the device at a position that is as long as can be, or a
    /// reset that makes room for one.
    Wear(usize),
    /// A wait that leaves the device at a position less time to its limit
    /// than one line's stamp can let pass.
    WaitNearLimit(usize),
    /// A question about any output of the device at a position.
    Question(usize),
    /// A question about the output of the device at a position.
    QuestionAbout(usize, u64),
}

struct Generator {
    random: Random,
    damage: u64,
    /// The bus after all finished lines, and the stamp if there are stamps.
    replay: Replay,
    stamped: bool,
    /// Whether devices are to come to the limit of their totals.
    wearing: bool,
    /// The time that the next line lets pass; 0 without stamps.
    pause: u64,
    plan: VecDeque<Step>,
    output: Vec<u8>,
    /// Where the unfinished line starts.
    line_start: usize,
    lines: usize,
}

/// Bytes that often lie at an edge of a rule.
pub const EDGE_BYTES: [u8; 10] = [0, 1, 2, 64, 127, 128, 129, 192, 254, 255];

/// Numbers that often lie at an edge of a rule, or do after being cut to
/// fewer bits.
const EDGE_NUMBERS: [u64; 28] = [
    0,
    1,
    2,
    3,
    6,
    7,
    8,
    9,
    15,
    16,
    96,
    103,
    112,
    127,
    128,
    255,
    256,
    257,
    9531,
    9551,
    9634,
    9635,
    1 << 32,
    (1 << 32) + 1,
    MAX_COUNT - 1,
    MAX_COUNT,
    MAX_COUNT + 1,
    999_999_999_999_999,
];

const CHIPS: [u64; 4] = [9635, 9634, 9531, 9551];

/// Driver addresses, some among the blinkers' and the groups'.
const DRIVER_ADDRESSES: [u64; 14] = [0, 1, 2, 4, 21, 22, 23, 96, 97, 111, 113, 114, 126, 127];

impl Generator {
    fn new(seed: u64, damage: u64, stamped: bool) -> Generator {
        let mut generator = Generator {
            random: Random::new(seed),
            damage,
            replay: Replay::default(),
            stamped,
            wearing: wear::wears(seed),
            pause: 0,
            plan: VecDeque::new(),
            output: Vec::new(),
            line_start: 0,
            lines: 0,
        };
        generator.plan_first_boards();
        generator
    }

    fn log(mut self, lines: usize) -> Vec<u8> {
        while self.lines < lines {
            self.next_line();
        }
        self.finish()
    }

    /// Writes one line, sensible or not.
    fn next_line(&mut self) {
        if self.stamped {
            self.choose_pause();
        }
        if self.random.chance(self.damage) {
            return self.disturb();
        }
        if self.stamped && self.past_limit() && self.random.chance(70) {
            return self.disturb_past_limit();
        }
        if !self.plan.is_empty() && self.random.chance(6) {
            return self.interleave();
        }
        let step = self.next_step();
        let event = self.resolve(step);
        if self.in_turn(event) || self.random.chance(30) {
            self.write_event(event);
        } else {
            self.plan_again(step);
        }
    }

    fn in_turn(&self, event: Event) -> bool {
        match event {
            Event::Add { .. } => self.replay.bus.message == Message::Idle,
            Event::Stop => self.replay.bus.message != Message::Idle,
            Event::Put { .. } => {
                matches!(self.replay.bus.message, Message::Address | Message::Write)
            }
            Event::Get { .. } => self.replay.bus.message == Message::Read,
            _ => true,
        }
    }

    /// After a disturbance: ends the message for a board to come, or gives up
    /// the planned message.
    fn plan_again(&mut self, step: Step) {
        if let Step::Event(Event::Add { .. }) = step {
            self.plan.push_front(step);
            self.plan.push_front(Step::Event(Event::Stop));
        } else {
            self.plan.clear();
        }
    }

    fn next_step(&mut self) -> Step {
        while self.plan.is_empty() {
            if self.wearing && self.random.chance(70) {
                self.plan_wear();
            } else if !self.stamped || !self.plan_for_limit() {
                self.plan_something();
            }
        }
        self.plan.pop_front().unwrap()
    }

    fn finish(mut self) -> Vec<u8> {
        if self.random.chance(self.damage) {
            let tails = if self.stamped {
                stamps::TAILS
            } else {
                ["\n", "\n\n", "ev=sta", "ev=start\n\nev=stop"]
            };
            let tail = *self.random.pick(&tails);
            self.output.extend_from_slice(tail.as_bytes());
        }
        if self.random.chance(30) && self.output.last() == Some(&b'\n') {
            self.output.pop();
        }
        self.output
    }

    // Writing lines.

    fn write_event(&mut self, event: Event) {
        let mut line = self.line_of(event);
        line.push(b'\n');
        self.write_bytes(&line);
    }

    /// The line of an event, with its stamp if there are stamps.
    fn line_of(&mut self, event: Event) -> Vec<u8> {
        let line = text::format_event(event);
        if self.stamped {
            format!("at={} {line}", self.next_stamp()).into_bytes()
        } else {
            line.into_bytes()
        }
    }

    /// Adds bytes to the log and runs the model over the lines they finish.
    fn write_bytes(&mut self, bytes: &[u8]) {
        for &byte in bytes {
            if byte == b'\n' {
                let line = &self.output[self.line_start..];
                if self.stamped {
                    self.replay.answer(line);
                } else {
                    text::answer(&mut self.replay.bus, line);
                }
                self.lines += 1;
                self.line_start = self.output.len() + 1;
            }
            self.output.push(byte);
        }
    }

    // Working out steps.

    fn resolve(&mut self, step: Step) -> Event {
        match step {
            Step::Event(event) => event,
            Step::Data => Event::Put {
                byte: self.data_byte() as u64,
            },
            Step::Wait(position) => Event::Wait {
                device: position as u64,
                ticks: self.wait_ticks(position),
            },
            Step::Wear(position) => self.wear(position),
            Step::WaitNearLimit(position) => Event::Wait {
                device: position as u64,
                ticks: self.wait_room(position).saturating_sub(self.any_size(32)),
            },
            Step::Question(position) => {
                let outputs = self.replay.bus.devices[position].chip.outputs();
                let output = self.random.below(outputs);
                self.question(position, output)
            }
            Step::QuestionAbout(position, output) => self.question(position, output),
        }
    }

    fn edge_byte(&mut self) -> u8 {
        if self.random.chance(50) {
            *self.random.pick(&EDGE_BYTES)
        } else {
            self.random.byte()
        }
    }

    /// A byte that suits the pointed register of a listening device.
    fn data_byte(&mut self) -> u8 {
        let listeners: Vec<&Chip> = self
            .replay
            .bus
            .devices
            .iter()
            .filter(|device| device.phase == Phase::Data)
            .map(|device| &device.chip)
            .collect();
        if listeners.is_empty() {
            return self.random.byte();
        }
        match (*self.random.pick(&listeners)).clone() {
            Chip::Driver(driver) => self.driver_byte(&driver),
            Chip::Blinker(blinker) => self.blinker_byte(&blinker),
        }
    }

    fn driver_byte(&mut self, driver: &Driver) -> u8 {
        let layout = driver.layout;
        match driver.pointer() {
            MODE1 => self.mode1_byte(),
            MODE2 => self.random.byte(),
            register if register >= layout.subadr1 => self.group_address_byte(),
            register if register >= layout.ledout => self.selector_byte(),
            register if register == layout.grpfreq => {
                let random = self.random.byte();
                *self.random.pick(&[0, 0, 1, 2, 23, 255, random])
            }
            _ => self.edge_byte(),
        }
    }

    /// Mostly awake, mostly with ALLCALL, any sub-calls.
    fn mode1_byte(&mut self) -> u8 {
        let byte = self.random.byte();
        if self.random.chance(85) {
            byte & !SLEEP
        } else {
            byte | SLEEP
        }
    }

    /// Usual group addresses, those of other boards, or the reset call's.
    fn group_address_byte(&mut self) -> u8 {
        let other = self.random.index(self.replay.bus.devices.len());
        let other = self.replay.bus.devices[other].chip.own_address() << 1;
        let random = self.random.byte();
        *self.random.pick(&[
            0xE0,
            0xE2,
            0xE3,
            0xE4,
            0xE8,
            0xE0,
            other,
            other | 1,
            0x06,
            random,
        ])
    }

    /// Four selectors, mostly of the kinds that depend on time.
    fn selector_byte(&mut self) -> u8 {
        let random = self.random.byte();
        *self
            .random
            .pick(&[0xAA, 0xFF, 0xE4, 0xEE, 0xBB, 0xFE, 0x1B, random, random])
    }

    fn blinker_byte(&mut self, blinker: &Blinker) -> u8 {
        match blinker.pointer() {
            INPUT => self.random.byte(),
            1 | 3 => {
                let random = self.random.byte();
                *self.random.pick(&[0, 1, 2, 3, 5, 255, random])
            }
            2 | 4 => self.edge_byte(),
            _ => self.selector_byte(),
        }
    }

    /// Period and length of the pulse that an output follows.
    fn pulse(&mut self, position: usize) -> (u64, u64) {
        let chip = &self.replay.bus.devices[position].chip;
        let output = self.random.below(chip.outputs()) as usize;
        match chip {
            Chip::Driver(driver) if driver.mode(output) == 0b11 && self.random.chance(70) => {
                driver.group_pulse()
            }
            Chip::Driver(driver) => (256, driver.brightness(output)),
            Chip::Blinker(blinker) => {
                let (divider, pwm) = blinker.rate(blinker.mode(output));
                (256 * divider, pwm * divider)
            }
        }
    }

    /// Ticks until a pulse next begins or ends, give or take one.
    fn ticks_to_edge(&mut self, position: usize) -> u64 {
        let t = self.count(position);
        let (period, on) = self.pulse(position);
        let edge = *self.random.pick(&[0, on]);
        let distance = (edge + period - t % period) % period;
        (distance + self.random.below(3)).saturating_sub(1)
    }

    /// A number of any size up to `bits` bits.
    fn any_size(&mut self, bits: u64) -> u64 {
        let bits = self.random.below(bits) + 1;
        self.random.below(1 << bits)
    }

    /// The count of a device when the next line's time has passed.
    fn count(&self, position: usize) -> u64 {
        let chip = &self.replay.bus.devices[position].chip;
        if chip.is_driver() && chip.awake() {
            MAX_COUNT.min(chip.count() + self.pause)
        } else {
            chip.count()
        }
    }

    /// Ticks left until the limit of the count, or as many as a window may
    /// have asleep.
    fn room(&self, position: usize) -> u64 {
        if self.replay.bus.devices[position].chip.awake() {
            MAX_COUNT - self.count(position)
        } else {
            MAX_COUNT
        }
    }

    fn wait_ticks(&mut self, position: usize) -> u64 {
        let room = self.wait_room(position);
        let ticks = match self.random.below(40) {
            0..=11 => self.random.below(600),
            12..=27 => self.ticks_to_edge(position),
            28..=37 => self.any_size(44),
            38 => self.any_size(48),
            _ => room.saturating_sub(self.random.below(4)),
        };
        ticks.min(room)
    }

    fn question(&mut self, position: usize, output: u64) -> Event {
        let device = position as u64;
        if self.random.chance(35) {
            return Event::Pin { device, output };
        }
        let ticks = self.lit_window(position);
        Event::Lit {
            device,
            output,
            ticks,
        }
    }

    fn lit_window(&mut self, position: usize) -> u64 {
        let room = self.room(position);
        let (period, _) = self.pulse(position);
        let window = match self.random.below(20) {
            0..=5 => self.random.below(600),
            6..=8 => self.ticks_to_edge(position),
            9 => 4094 + self.random.below(5),
            10..=11 => period * self.random.below(4) + self.random.below(3),
            12..=17 => self.any_size(48),
            _ => room.saturating_sub(self.random.below(3)),
        };
        window.min(room)
    }

    // Plans.

    fn push(&mut self, event: Event) {
        self.plan.push_back(Step::Event(event));
    }

    fn push_put(&mut self, byte: u8) {
        self.push(Event::Put { byte: byte as u64 });
    }

    fn push_data(&mut self, count: u64) {
        for _ in 0..count {
            self.plan.push_back(Step::Data);
        }
    }

    fn position(&mut self) -> usize {
        self.random.index(self.replay.bus.devices.len())
    }

    fn driver_positions(&self) -> Vec<usize> {
        let positions = 0..self.replay.bus.devices.len();
        positions
            .filter(|&position| self.replay.bus.devices[position].chip.is_driver())
            .collect()
    }

    /// The positions of the devices that answer a 7-bit address other than 3.
    fn positions_answering(&self, address: u8) -> Vec<usize> {
        let positions = 0..self.replay.bus.devices.len();
        positions
            .filter(|&position| self.replay.bus.devices[position].chip.answers(address))
            .collect()
    }

    fn plan_first_boards(&mut self) {
        if self.random.chance(10) {
            return self.plan_boards_at_one_address();
        }
        for _ in 0..1 + self.random.below(MAX_DEVICES as u64) {
            self.plan_add();
        }
    }

    fn plan_add(&mut self) {
        let chip = *self.random.pick(&CHIPS);
        let address = if chip == 9531 || chip == 9551 {
            self.random.below(8)
        } else {
            *self.random.pick(&DRIVER_ADDRESSES)
        };
        self.push(Event::Add { chip, address });
    }

    /// A full bus of boards that all answer one address: drivers alone, or
    /// boards of any kind.
    fn plan_boards_at_one_address(&mut self) {
        let pins = self.random.below(8);
        let chips = *self.random.pick(&[&CHIPS[..2], &CHIPS]);
        for _ in 0..MAX_DEVICES {
            let chip = *self.random.pick(chips);
            let address = match chip {
                9531 | 9551 => pins,
                _ => 96 + pins,
            };
            self.push(Event::Add { chip, address });
        }
    }

    fn plan_something(&mut self) {
        if self.replay.bus.devices.is_empty() {
            return self.plan_boards();
        }
        let position = self.position();
        if !self.replay.bus.devices[position].chip.awake() && self.random.chance(40) {
            return if self.random.chance(50) {
                self.plan_wake_up(position)
            } else {
                self.plan_set_up(position)
            };
        }
        if self.room(position) < 600 && self.random.chance(60) {
            return self.plan_restart(position);
        }
        match self.random.below(210) {
            0..=39 => self.plan_write(position),
            40..=54 => self.plan_pending(position),
            55..=84 => self.plan_read(position),
            85..=94 => self.plan_read_on(position),
            95..=124 => self.plan_time(position),
            125..=149 => self.plan_questions(position),
            150..=164 => self.plan_pins(position),
            165..=174 => self.plan_sleep(position),
            175..=178 => self.plan_illegal_control(position),
            179..=182 => self.plan_wrong_reset_call(),
            183..=184 => self.plan_reset_call(),
            185..=188 => self.plan_unknown_address(),
            189..=191 => self.plan_empty_messages(),
            192..=193 => self.push(Event::Reset {
                device: position as u64,
            }),
            194..=196 => self.plan_boards(),
            197..=206 => self.plan_shared_write(),
            _ => self.plan_set_up(position),
        }
    }

    /// More boards, if there is room.
    fn plan_boards(&mut self) {
        if self.replay.bus.message != Message::Idle {
            self.push(Event::Stop);
        }
        if self.replay.bus.devices.len() < MAX_DEVICES {
            self.plan_add();
        } else {
            self.plan_time(0);
        }
    }

    /// The device's own address or one of its group addresses, as a byte for
    /// writing.
    fn address_byte(&mut self, position: usize) -> u8 {
        let chip = &self.replay.bus.devices[position].chip;
        let own = chip.own_address() << 1;
        let Chip::Driver(driver) = chip else {
            return own;
        };
        if self.random.chance(70) {
            return own;
        }
        let layout = driver.layout;
        let mode1 = driver.written[MODE1 as usize];
        let registers = layout.subadr1..=layout.allcalladr;
        let groups: Vec<u8> = registers
            .zip([0x08, 0x04, 0x02, 0x01])
            .filter(|(_, enable)| mode1 & enable != 0 || self.random.chance(10))
            .map(|(register, _)| driver.written[register as usize])
            .collect();
        if groups.is_empty() {
            own
        } else {
            *self.random.pick(&groups)
        }
    }

    fn control_byte(&mut self, position: usize) -> u8 {
        match &self.replay.bus.devices[position].chip {
            Chip::Driver(driver) => {
                let layout = driver.layout;
                let option = *self.random.pick(&[0, 4, 5, 6, 7, 4, 7]);
                let starts = [
                    0,
                    PWM0,
                    layout.grppwm - 1,
                    layout.grppwm,
                    layout.grpfreq,
                    layout.ledout,
                    layout.allcalladr,
                ];
                let register = if self.random.chance(60) {
                    *self.random.pick(&starts)
                } else {
                    self.random.below(layout.allcalladr as u64 + 1) as u8
                };
                option << 5 | register
            }
            Chip::Blinker(_) => {
                let increment = *self.random.pick(&[0x10, 0x10, 0]);
                increment | self.random.below(7) as u8
            }
        }
    }

    fn begin_write(&mut self, position: usize, control: u8) {
        self.push(Event::Start);
        let address = self.address_byte(position);
        self.push_put(address);
        self.push_put(control);
    }

    /// Mostly a STOP; else the next message begins with a repeated START.
    fn end_message(&mut self) {
        if self.random.chance(75) {
            self.push(Event::Stop);
        }
    }

    fn data_length(&mut self) -> u64 {
        match self.random.below(20) {
            0..=14 => 1 + self.random.below(4),
            15..=18 => 5 + self.random.below(16),
            _ => 20 + self.random.below(40),
        }
    }

    fn plan_write(&mut self, position: usize) {
        let control = self.control_byte(position);
        self.begin_write(position, control);
        let length = self.data_length();
        self.push_data(length);
        self.ask_about(position, 30);
        self.end_message();
        self.ask_about(position, 60);
    }

    /// A write that as many boards as possible hear. Its control byte suits
    /// one of them and may be illegal for others; a reset may take that one
    /// out of the message.
    fn plan_shared_write(&mut self) {
        let address = (0..128)
            .filter(|&address| address != 3)
            .max_by_key(|&address| self.positions_answering(address).len())
            .unwrap();
        let hearing = self.positions_answering(address);
        let position = *self.random.pick(&hearing);
        let control = self.control_byte(position);
        self.push(Event::Start);
        self.push_put(address << 1);
        self.push_put(control);
        self.push_data(1);
        if self.random.chance(30) {
            self.push(Event::Reset {
                device: position as u64,
            });
        }
        self.push_data(2);
        self.end_message();
    }

    /// Registers of one output written, with questions about it before and
    /// after some other message and its STOP.
    fn plan_pending(&mut self, position: usize) {
        let output = self
            .random
            .below(self.replay.bus.devices[position].chip.outputs());
        let control = self.output_control_byte(position, output as u8);
        self.begin_write(position, control);
        let length = 1 + self.random.below(3);
        self.push_data(length);
        let ask = Step::QuestionAbout(position, output);
        self.plan.extend([ask, ask]);
        self.plan_other_message(position);
        self.plan.extend([ask, ask]);
        self.push(Event::Stop);
        self.plan.extend([ask, ask]);
    }

    /// Points to a register that an output's lamp depends on.
    fn output_control_byte(&mut self, position: usize, output: u8) -> u8 {
        match &self.replay.bus.devices[position].chip {
            Chip::Driver(driver) => {
                let layout = driver.layout;
                let pwm = PWM0 + output;
                let ledout = layout.ledout + output / 4;
                let registers = [pwm, pwm, ledout, layout.grppwm, layout.grpfreq];
                *self.random.pick(&[0x00, 0x80]) | *self.random.pick(&registers)
            }
            Chip::Blinker(_) => 0x11 + self.random.below(6) as u8,
        }
    }

    /// A repeated START and a few more bytes to the device or to others,
    /// without STOP.
    fn plan_other_message(&mut self, position: usize) {
        let other = self.position();
        let addressed = *self.random.pick(&[position, other]);
        let address = self.address_byte(addressed);
        let nobody = self.random.byte() & 0xFE;
        let bytes: &[u8] = match self.random.below(7) {
            0 => &[],
            1 => &[address],
            2 => &[address | 1],
            3 => &[address, 0x02],
            4 => &[nobody, 0x02],
            5 => &[0x06, 0xA5],
            _ => &[0x07],
        };
        self.push(Event::Start);
        for &byte in bytes {
            self.push_put(byte);
        }
        if bytes.len() == 1 && bytes[0] & 1 == 1 {
            match self.random.below(3) {
                0 => {}
                1 => self.push(Event::Get { ack: 1 }),
                _ => self.push_gets(2),
            }
        }
    }

    fn ask_about(&mut self, position: usize, percent: u64) {
        while self.random.chance(percent) {
            self.plan.push_back(Step::Question(position));
        }
    }

    /// The whole table in one message, from register 0 or 1 on.
    fn plan_set_up(&mut self, position: usize) {
        let (control, length) = match &self.replay.bus.devices[position].chip {
            Chip::Driver(driver) => (0x80, driver.layout.allcalladr as u64 + 1),
            Chip::Blinker(_) => (0x11, 6),
        };
        self.begin_write(position, control);
        self.push_data(length);
        self.push(Event::Stop);
        self.ask_about(position, 70);
    }

    /// Writes MODE1 by the device's own address.
    fn plan_mode1(&mut self, position: usize, byte: u8) {
        let own = self.replay.bus.devices[position].chip.own_address() << 1;
        let control = *self.random.pick(&[0x00, 0x80, 0xA0, 0xC0, 0xE0]);
        self.push(Event::Start);
        self.push_put(own);
        self.push_put(control);
        self.push_put(byte);
    }

    fn plan_wake_up(&mut self, position: usize) {
        let byte = self.random.byte() & !SLEEP;
        self.plan_mode1(position, byte);
        if self.random.chance(30) {
            let more = self.data_length();
            self.push_data(more);
        }
        self.ask_about(position, 30);
        self.end_message();
        self.ask_about(position, 50);
    }

    fn plan_sleep(&mut self, position: usize) {
        let byte = self.random.byte() | SLEEP;
        if self.replay.bus.devices[position].chip.is_driver() {
            self.plan_mode1(position, byte);
            self.end_message();
            self.ask_about(position, 50);
            if self.random.chance(50) {
                self.begin_write(position, MODE2);
                self.push_data(1);
                self.ask_about(position, 70);
                self.end_message();
            }
        }
        self.plan.push_back(Step::Wait(position));
        self.ask_about(position, 70);
    }

    /// Lets the count of a device near the limit begin anew.
    fn plan_restart(&mut self, position: usize) {
        if self.replay.bus.devices[position].chip.is_driver() && self.random.chance(80) {
            self.plan_sleep(position);
            self.plan_wake_up(position);
        } else {
            self.push(Event::Reset {
                device: position as u64,
            });
        }
    }

    fn push_gets(&mut self, count: u64) {
        for _ in 1..count {
            self.push(Event::Get { ack: 1 });
        }
        let last = !self.random.chance(85) as u64;
        self.push(Event::Get { ack: last });
    }

    fn plan_read(&mut self, position: usize) {
        let control = self.control_byte(position);
        self.begin_write(position, control);
        self.plan_read_on(position);
    }

    /// A read from the present pointer on.
    fn plan_read_on(&mut self, position: usize) {
        self.push(Event::Start);
        let address = self.address_byte(position) | 1;
        self.push_put(address);
        let count = self.data_length();
        self.push_gets(count);
        self.end_message();
    }

    fn plan_time(&mut self, position: usize) {
        self.plan.push_back(Step::Wait(position));
        self.ask_about(position, 50);
    }

    fn plan_questions(&mut self, position: usize) {
        self.plan.push_back(Step::Question(position));
        self.ask_about(position, 75);
    }

    /// Levels set, then every pin asked for.
    fn plan_pins(&mut self, position: usize) {
        let event = self.level_event(position);
        self.push(event);
        if self.random.chance(30) {
            for output in 0..self.replay.bus.devices[position].chip.outputs() {
                self.push(Event::Pin {
                    device: position as u64,
                    output,
                });
            }
        } else {
            self.ask_about(position, 60);
        }
    }

    fn level_event(&mut self, position: usize) -> Event {
        let device = position as u64;
        match self.replay.bus.devices[position].chip {
            Chip::Driver(_) => Event::Oe {
                device,
                level: self.random.below(2),
            },
            Chip::Blinker(_) => Event::Ext {
                device,
                level: self.edge_byte() as u64,
            },
        }
    }

    /// A control byte that may be illegal, bytes after it, then a read.
    fn plan_illegal_control(&mut self, position: usize) {
        let control = match &self.replay.bus.devices[position].chip {
            Chip::Driver(driver) => {
                let past = self.random.byte() & 0xE0 | (driver.layout.allcalladr + 1);
                let option = 1 + self.random.below(3) as u8;
                let reserved = option << 5 | self.random.byte() & 0x1F;
                *self.random.pick(&[past, reserved])
            }
            Chip::Blinker(_) => {
                let random = self.random.byte();
                *self
                    .random
                    .pick(&[0x07, 0x17, 0x08, 0x20, 0x40, 0x80, random])
            }
        };
        self.begin_write(position, control);
        let length = self.random.below(3);
        self.push_data(length);
        self.plan_read_on(position);
    }

    fn plan_reset_call(&mut self) {
        self.push(Event::Start);
        for byte in [0x06, 0xA5, 0x5A] {
            self.push_put(byte);
        }
        self.push(Event::Stop);
    }

    fn plan_wrong_reset_call(&mut self) {
        let random = self.random.byte();
        let bytes: &[u8] = match self.random.below(9) {
            0 => &[0x06],
            1 => &[0x06, 0xA5],
            2 => &[0x06, 0x5A, 0xA5],
            3 => &[0x06, 0x5A, 0xA5, 0x5A],
            4 => &[0x06, 0xA5, 0xA5, 0x5A],
            5 => &[0x06, 0xA5, 0x5A, random],
            6 => &[0x06, 0xA5, random, 0x5A],
            7 => &[0x06, random, 0x5A],
            _ => &[0x06, 0xA5, 0x5A],
        };
        self.push(Event::Start);
        if self.random.chance(15) {
            self.push_put(0x07);
            self.push_gets(2);
            return self.end_message();
        }
        for &byte in bytes {
            self.push_put(byte);
            if self.random.chance(25) {
                let device = self.position() as u64;
                self.push(Event::Reset { device });
            }
        }
        if bytes == [0x06, 0xA5, 0x5A] {
            self.plan_after_reset_call();
        }
        self.end_message();
    }

    /// Breaks or bends a right reset call just before its STOP.
    fn plan_after_reset_call(&mut self) {
        let drivers = self.driver_positions();
        match self.random.below(3) {
            0 => self.push(Event::Start),
            1 if !drivers.is_empty() => {
                let device = *self.random.pick(&drivers) as u64;
                self.push(Event::Reset { device });
            }
            _ => self.push_put(0x5A),
        }
    }

    fn plan_unknown_address(&mut self) {
        let address = self.random.byte();
        self.push(Event::Start);
        self.push_put(address);
        let count = 1 + self.random.below(3);
        if address & 1 == 1 {
            self.push_gets(count);
        } else {
            self.push_data(count);
        }
        self.end_message();
    }

    fn plan_empty_messages(&mut self) {
        for _ in 0..1 + self.random.below(3) {
            self.push(Event::Start);
        }
        self.end_message();
    }

    // Disturbances.

    /// A sensible event that is not on the bus, between planned lines.
    fn interleave(&mut self) {
        if self.replay.bus.devices.is_empty() {
            return;
        }
        let position = self.position();
        let event = match self.random.below(40) {
            0..=11 => self.resolve(Step::Wait(position)),
            12..=31 => self.resolve(Step::Question(position)),
            32..=38 => self.level_event(position),
            _ => Event::Reset {
                device: position as u64,
            },
        };
        self.write_event(event);
    }

    fn disturb(&mut self) {
        if self.stamped && self.random.chance(25) {
            return self.disturb_stamp();
        }
        match self.random.below(4) {
            0 => {
                let event = self.out_of_turn();
                self.write_event(event);
            }
            1 => {
                let event = self.wrong_numbers();
                self.write_event(event);
            }
            2 => {
                let event = self.any_event();
                self.write_event(event);
            }
            _ => self.write_damaged(),
        }
    }

    fn out_of_turn(&mut self) -> Event {
        let byte = self.random.below(260);
        let ack = self.random.below(3);
        let put = Event::Put { byte };
        let get = Event::Get { ack };
        let add = Event::Add {
            chip: *self.random.pick(&CHIPS),
            address: self.random.below(8),
        };
        let events = match self.replay.bus.message {
            Message::Idle => [put, get, Event::Stop],
            Message::Address | Message::Write => [get, get, add],
            Message::Read => [put, put, add],
            Message::Ended => [put, get, add],
        };
        *self.random.pick(&events)
    }

    fn number(&mut self) -> u64 {
        if self.random.chance(80) {
            *self.random.pick(&EDGE_NUMBERS)
        } else {
            self.random.below(1_000_000_000_000_000)
        }
    }

    /// A number just past a bound, far past it, or one that fits again when
    /// cut to 8 or 32 bits.
    fn past(&mut self, bound: u64) -> u64 {
        let small = self.random.below(bound.clamp(1, 256));
        let far = self.random.below(999_999_999_000_000);
        *self.random.pick(&[
            bound,
            bound + 1,
            bound + far,
            bound.max(256) + small,
            bound.max(1 << 32) + small,
        ])
    }

    /// A level that is in range half the time.
    fn level_or_past(&mut self, bound: u64) -> u64 {
        let past = self.past(bound);
        *self.random.pick(&[0, bound - 1, past, past])
    }

    /// An event with one number out of range.
    fn wrong_numbers(&mut self) -> Event {
        let address = *self
            .random
            .pick(&[3, 112, 8, 128, 255, 259, 277, 368, (1 << 32) + 5]);
        match self.random.below(12) {
            0 => Event::Add {
                chip: self.wrong_chip(),
                address: *self.random.pick(&[1, 2, 5, 7, address]),
            },
            1 => Event::Add {
                chip: *self.random.pick(&CHIPS),
                address,
            },
            2 => Event::Put {
                byte: self.past(256),
            },
            3 => Event::Get { ack: self.past(2) },
            4 => Event::Reset {
                device: self.past(self.replay.bus.devices.len() as u64),
            },
            _ => self.wrong_device_event(),
        }
    }

    /// No kind of chip, but one when cut to 16 or 32 bits, or close to one.
    fn wrong_chip(&mut self) -> u64 {
        let chip = *self.random.pick(&CHIPS);
        let any = self.number();
        *self
            .random
            .pick(&[chip + (1 << 16), chip + (1 << 32), chip - 1, chip + 1, any])
    }

    /// An event of a device with a missing device or output, a level out of
    /// range, the wrong sort of device, or too many ticks.
    fn wrong_device_event(&mut self) -> Event {
        if self.replay.bus.devices.is_empty() {
            return self.any_event();
        }
        let position = self.position();
        let device = position as u64;
        let missing = self.past(self.replay.bus.devices.len() as u64);
        let missing_output = self.past(self.replay.bus.devices[position].chip.outputs());
        let too_many = self.past(self.wait_room(position) + 1);
        match self.random.below(8) {
            0 => Event::Wait {
                device,
                ticks: too_many,
            },
            1 => Event::Lit {
                device,
                output: self.random.below(16),
                ticks: too_many,
            },
            2 => Event::Lit {
                device,
                output: missing_output,
                ticks: self.lit_window(position),
            },
            3 => Event::Pin {
                device,
                output: missing_output,
            },
            4 => Event::Oe {
                device,
                level: self.level_or_past(2),
            },
            5 => Event::Ext {
                device,
                level: self.level_or_past(256),
            },
            6 => Event::Wait {
                device: missing,
                ticks: self.number(),
            },
            _ => Event::Pin {
                device: missing,
                output: self.number(),
            },
        }
    }

    /// A position that may lack a device.
    fn any_position(&mut self) -> u64 {
        if self.random.chance(80) {
            self.random.below(MAX_DEVICES as u64)
        } else {
            self.number()
        }
    }

    /// Any event with any numbers.
    fn any_event(&mut self) -> Event {
        let device = self.any_position();
        let output = self.random.below(17);
        let number = self.number();
        match self.random.below(11) {
            0 => Event::Add {
                chip: *self.random.pick(&CHIPS),
                address: number,
            },
            1 => Event::Start,
            2 => Event::Stop,
            3 => Event::Put { byte: number },
            4 => Event::Get { ack: number },
            5 => Event::Wait {
                device,
                ticks: number,
            },
            6 => Event::Oe {
                device,
                level: number,
            },
            7 => Event::Ext {
                device,
                level: number,
            },
            8 if self.random.chance(20) => Event::Reset { device },
            8 | 9 => Event::Lit {
                device,
                output,
                ticks: number,
            },
            _ => Event::Pin { device, output },
        }
    }

    /// Writes the next planned line damaged; often the right line follows.
    fn write_damaged(&mut self) {
        let step = self.next_step();
        let event = self.resolve(step);
        let other = self.any_event();
        let mut line = self.line_of(event);
        let other = self.line_of(other);
        let random = &mut self.random;
        match random.below(5) {
            0..=1 => damage_bytes(random, &mut line),
            2..=3 => damage_shape(random, &mut line),
            _ => damage_by_line(random, &mut line, &other),
        }
        if !self.random.chance(8) {
            line.push(b'\n');
        }
        if self.random.chance(60) {
            self.plan.push_front(Step::Event(event));
        }
        self.write_bytes(&line);
    }
}

/// Bytes that look right in a line.
const LIKELY_BYTES: &[u8] = b"0123456789 =\n\r\tabcdeghiklmnoprstuvwx+-.";

fn likely_byte(random: &mut Random) -> u8 {
    if random.chance(70) {
        *random.pick(LIKELY_BYTES)
    } else {
        random.byte()
    }
}

/// Flips, inserts, deletes, replaces or doubles one to three bytes.
pub fn damage_bytes(random: &mut Random, line: &mut Vec<u8>) {
    for _ in 0..1 + random.below(3) {
        if line.is_empty() {
            return;
        }
        let place = random.index(line.len());
        let byte = likely_byte(random);
        match random.below(5) {
            0 => line[place] ^= 1 << random.below(8),
            1 => line.insert(place, byte),
            2 => drop(line.remove(place)),
            3 => line[place] = byte,
            _ => line.insert(place, line[place]),
        }
    }
}

/// Breaks one rule of the line's shape.
fn damage_shape(random: &mut Random, line: &mut Vec<u8>) {
    let equals = last_place(line, b'=') + 1;
    let space = last_place(line, b' ');
    match random.below(14) {
        0 => line.insert(equals, b'0'),
        1 => line.insert(space, b' '),
        2 => line.insert(0, b' '),
        3 => line.push(b' '),
        4 => line.push(b'\r'),
        5 => line.clear(),
        6 => line.truncate(equals),
        7 => line.truncate(space),
        8 => line.insert(equals, *random.pick(b"+-")),
        9 => line.extend_from_slice(b"0000000000000"),
        10 => line.splice(0..0, *b"at=1 ").for_each(drop),
        11 => {
            let place = random.index(line.len());
            line[place].make_ascii_uppercase();
        }
        12 => {
            let parts: Vec<&[u8]> = line.rsplit(|&byte| byte == b' ').collect();
            *line = parts.join(&b' ');
        }
        _ => lengthen_number(random, line),
    }
}

/// Makes the last number of the line 15 or 16 digits long.
fn lengthen_number(random: &mut Random, line: &mut Vec<u8>) {
    let start = last_place(line, b'=') + 1;
    let digits = 15 + random.index(2);
    while line.len() < start + digits {
        line.push(b'0' + random.below(10) as u8);
    }
}

fn last_place(line: &[u8], wanted: u8) -> usize {
    line.iter().rposition(|&byte| byte == wanted).unwrap_or(0)
}

/// Splices two lines, or makes the line too long.
fn damage_by_line(random: &mut Random, line: &mut Vec<u8>, other: &[u8]) {
    match random.below(6) {
        0 => line.extend_from_slice(other),
        1 => {
            line.push(b' ');
            line.extend_from_slice(other);
        }
        2 => {
            let from = random.index(other.len());
            line.truncate(random.index(line.len()));
            line.extend_from_slice(&other[from..]);
        }
        3 => {
            let place = random.index(line.len());
            line.splice(place..place, other.iter().copied());
        }
        4 => fill(random, line, 78, 6),
        _ => {
            let mut long = Vec::new();
            let (least, more) = *random.pick(&[(78, 6), (160, 6), (200, 400), (4094, 4)]);
            fill(random, &mut long, least, more);
            long.extend_from_slice(line);
            *line = long;
        }
    }
}

/// Lengthens a line to `least` bytes or up to `more` bytes beyond.
fn fill(random: &mut Random, line: &mut Vec<u8>, least: usize, more: usize) {
    let length = least + random.index(more);
    let byte = *random.pick(b" 0x");
    while line.len() < length {
        line.push(byte);
    }
}

#[cfg(test)]
mod tests {
    use super::*;
    use crate::model::Bus;
    use std::collections::BTreeSet;

    /// The codes of all answers to a log.
    fn codes(log: &[u8]) -> Vec<u64> {
        let mut bus = Bus::new();
        text::lines(log)
            .map(|line| text::answer(&mut bus, line).0)
            .collect()
    }

    fn accepted_percent(seed: u64, damage: u64) -> usize {
        let codes = codes(&log(seed, 1000, damage));
        codes.iter().filter(|&&code| code == 0).count() * 100 / codes.len()
    }

    #[test]
    fn the_seed_decides() {
        assert_eq!(log(7, 500, 20), log(7, 500, 20));
        assert_ne!(log(7, 500, 20), log(8, 500, 20));
    }

    #[test]
    fn sensible_logs_are_accepted() {
        for seed in 1..50 {
            assert!(accepted_percent(seed, 0) >= 99, "seed {seed}");
            assert!(accepted_percent(seed, 10) >= 75, "seed {seed}");
        }
    }

    #[test]
    fn all_codes_occur() {
        let mut seen = BTreeSet::new();
        for seed in 1..20 {
            seen.extend(codes(&log(seed, 2000, 20)));
        }
        let expected = BTreeSet::from([0, 1, 2, 3, 4, 5, 6, 7, 9, 10]);
        assert_eq!(seen, expected);
    }

    #[test]
    fn counts_reach_the_limit() {
        let mut reached = 0;
        for seed in 1..20 {
            let mut generator = Generator::new(seed, 5, false);
            while generator.lines < 3000 {
                generator.next_line();
                let devices = &generator.replay.bus.devices;
                reached += devices
                    .iter()
                    .any(|device| device.chip.count() == MAX_COUNT)
                    as usize;
            }
        }
        assert!(reached > 100);
    }

    /// The messages of a log, each the bytes that the master put and the sets
    /// of the devices that acknowledged them.
    fn messages(log: &[u8]) -> Vec<Vec<(u64, u64)>> {
        let mut bus = Bus::new();
        let mut messages = Vec::new();
        for line in text::lines(log) {
            let answer = text::answer(&mut bus, line);
            match (text::parse(line), answer) {
                (Some(Event::Start), _) => messages.push(Vec::new()),
                (Some(Event::Put { byte }), (0, set)) => {
                    messages.last_mut().unwrap().push((byte, set))
                }
                _ => {}
            }
        }
        messages
    }

    fn many_messages() -> impl Iterator<Item = Vec<(u64, u64)>> {
        (1..100).flat_map(|seed| messages(&log(seed, 1000, 5)))
    }

    /// The devices that leave a message which others still hear.
    fn leavers(message: &[(u64, u64)]) -> u64 {
        let sets = message.windows(2).map(|pair| (pair[0].1, pair[1].1));
        sets.filter(|&(_, after)| after != 0)
            .fold(0, |left, (before, after)| left | before & !after)
    }

    #[test]
    fn devices_acknowledge_together() {
        let sets: BTreeSet<u64> = many_messages().flatten().map(|(_, set)| set).collect();
        let shared = sets.iter().filter(|set| set.count_ones() > 1);
        assert!(shared.count() > 100);
        assert!(sets.contains(&255));
    }

    /// Each at an illegal control byte and by a reset, some by a reset in the
    /// reset call.
    #[test]
    fn devices_leave_messages_that_others_hear() {
        let (mut at_control, mut later, mut in_reset_call) = (0, 0, 0);
        for message in many_messages().filter(|message| message.len() > 1) {
            if message[0].0 == 0x06 {
                in_reset_call |= leavers(&message);
            } else {
                at_control |= leavers(&message[..2]);
                later |= leavers(&message[1..]);
            }
        }
        assert_eq!([at_control, later], [255, 255]);
        assert_ne!(in_reset_call, 0);
    }

    #[test]
    fn any_damage_gives_a_log() {
        for damage in [0, 1, 50, 99, 100] {
            let log = log(3, 300, damage);
            assert!(text::lines(&log).count() >= 300);
        }
    }
}
