//! The twin as plain structs changed in place: one bus, up to eight devices.
//!
//! Sentences in quotation marks are those of the owner's rules paper, which
//! docs/RULES.md condenses, and of the owner's change requests.

/// Most devices on a bus.
pub const MAX_DEVICES: usize = 8;
/// Most outputs of a device.
pub const MAX_OUTPUTS: usize = 16;
/// Greatest tick or step count of a device, and greatest wait and window of
/// `lit`.
pub const MAX_COUNT: u64 = 1 << 48;
/// Most ticks or steps of an output's two totals together.
pub const MAX_TOTAL: u64 = 1 << 56;

/// Windows of `lit` up to this length are counted tick by tick.
const SHORT_WINDOW: u64 = 4096;

/// Refusal numbers.
pub const UNKNOWN_CHIP: u64 = 1;
pub const BAD_ADDRESS: u64 = 2;
pub const NO_DEVICE: u64 = 3;
pub const BAD_LINE: u64 = 4;
pub const OUT_OF_TURN: u64 = 5;
pub const COUNT_LIMIT: u64 = 6;
pub const OUT_OF_RANGE: u64 = 7;
pub const NO_OUTPUT: u64 = 9;
pub const WRONG_DEVICE: u64 = 10;

/// What can happen on the bus. Arguments are unchecked.
#[derive(Clone, Copy, Debug, PartialEq, Eq)]
pub enum Event {
    Add {
        chip: u64,
        address: u64,
    },
    Start,
    Stop,
    Put {
        byte: u64,
    },
    Get {
        ack: u64,
    },
    Wait {
        device: u64,
        ticks: u64,
    },
    Oe {
        device: u64,
        level: u64,
    },
    Ext {
        device: u64,
        level: u64,
    },
    Reset {
        device: u64,
    },
    Lit {
        device: u64,
        output: u64,
        ticks: u64,
    },
    Pin {
        device: u64,
        output: u64,
    },
}

/// A value, or the number of a refusal.
pub type Answer = Result<u64, u64>;

/// The open message, if any.
#[derive(Clone, Copy, Debug, PartialEq, Eq)]
pub enum Message {
    Idle,
    /// START seen, the address byte is due.
    Address,
    Write,
    Read,
    /// A read after a get with ack 0.
    Ended,
}

/// A device's part in the open message.
#[derive(Clone, Copy, Debug, PartialEq, Eq)]
pub enum Phase {
    Deaf,
    /// Selected for writing, the control byte is due.
    Control,
    Data,
    Talk,
    /// Software reset call, with the number of right bytes taken after 06h.
    ResetCall(u8),
}

#[derive(Clone, Debug)]
pub struct Device {
    pub phase: Phase,
    pub chip: Chip,
    /// By output; those past the chip's outputs stay 0.
    pub totals: [Totals; MAX_OUTPUTS],
}

/// "The lit ticks (or steps) and, summed on their own, the unlit ones" of an
/// output, over all accepted waits since its device was added.
#[derive(Clone, Copy, Debug, Default, PartialEq, Eq)]
pub struct Totals {
    pub lit: u64,
    pub unlit: u64,
}

#[derive(Clone, Debug)]
pub enum Chip {
    Driver(Driver),
    Blinker(Blinker),
}

#[derive(Clone, Debug)]
pub struct Bus {
    pub message: Message,
    pub devices: Vec<Device>,
}

/// Gives the first refusal that holds. The list is in order of the numbers:
/// "Where several hold, the smallest number."
pub fn refuse_if(conditions: &[(u64, bool)]) -> Result<(), u64> {
    match conditions.iter().find(|(_, holds)| *holds) {
        Some((number, _)) => Err(*number),
        None => Ok(()),
    }
}

impl Default for Bus {
    fn default() -> Self {
        Bus::new()
    }
}

impl Bus {
    pub fn new() -> Bus {
        Bus {
            message: Message::Idle,
            devices: Vec::new(),
        }
    }

    /// Carries out one event and gives (code, value).
    /// "Every refusal has value 0 and changes nothing."
    pub fn apply(&mut self, event: Event) -> (u64, u64) {
        match self.answer(event) {
            Ok(value) => (0, value),
            Err(code) => (code, 0),
        }
    }

    /// Lets time pass for every driver, then carries out one event, and gives
    /// (code, value). If the time does not fit, its number and the event's
    /// are judged together. A refused event takes its time back.
    pub fn apply_after(&mut self, ticks: u64, event: Event) -> (u64, u64) {
        if self.time_would_pass_limit(ticks) {
            // The numbers below the limit's depend on no count and no total.
            let own = self.clone().answer(event).err();
            return (COUNT_LIMIT.min(own.unwrap_or(COUNT_LIMIT)), 0);
        }
        self.drivers().for_each(|driver| driver.wait(ticks));
        let answer = self.apply(event);
        if answer.0 != 0 {
            self.drivers().for_each(|driver| driver.take_back(ticks));
        }
        answer
    }

    /// "6 if any driver's count would pass its limit", and as for a wait "in
    /// replay too".
    pub fn time_would_pass_limit(&self, ticks: u64) -> bool {
        self.devices
            .iter()
            .any(|device| device.chip.is_driver() && device.wait_would_pass_limit(ticks))
    }

    /// "That time goes to every driver"; "blinkers move only by their own wait
    /// lines".
    fn drivers(&mut self) -> impl Iterator<Item = &mut Device> {
        self.devices
            .iter_mut()
            .filter(|device| device.chip.is_driver())
    }

    fn answer(&mut self, event: Event) -> Answer {
        match event {
            Event::Add { chip, address } => self.add(chip, address),
            Event::Start => self.start(),
            Event::Stop => self.stop(),
            Event::Put { byte } => self.put(byte),
            Event::Get { ack } => self.get(ack),
            Event::Wait { device, ticks } => self.wait(device, ticks),
            Event::Oe { device, level } => self.oe(device, level),
            Event::Ext { device, level } => self.ext(device, level),
            Event::Reset { device } => self.reset(device),
            Event::Lit {
                device,
                output,
                ticks,
            } => self.lit(device, output, ticks),
            Event::Pin { device, output } => self.pin(device, output),
        }
    }

    /// The device at a position.
    fn device(&mut self, position: u64) -> Result<&mut Device, u64> {
        usize::try_from(position)
            .ok()
            .and_then(|index| self.devices.get_mut(index))
            .ok_or(NO_DEVICE)
    }

    fn add(&mut self, chip: u64, address: u64) -> Answer {
        let fresh = Chip::fresh(chip, address)?;
        refuse_if(&[
            (NO_DEVICE, self.devices.len() >= MAX_DEVICES),
            (OUT_OF_TURN, self.message != Message::Idle),
        ])?;
        self.devices.push(Device::with(fresh));
        Ok(self.devices.len() as u64 - 1)
    }

    fn start(&mut self) -> Answer {
        self.deselect_all();
        self.message = Message::Address;
        Ok(0)
    }

    fn stop(&mut self) -> Answer {
        refuse_if(&[(OUT_OF_TURN, self.message == Message::Idle)])?;
        for device in &mut self.devices {
            device.stop();
        }
        self.deselect_all();
        self.message = Message::Idle;
        Ok(0)
    }

    fn deselect_all(&mut self) {
        for device in &mut self.devices {
            device.phase = Phase::Deaf;
        }
    }

    /// The value has "bit i set exactly when the device at position i
    /// acknowledged".
    fn put(&mut self, byte: u64) -> Answer {
        let in_turn = matches!(self.message, Message::Address | Message::Write);
        refuse_if(&[(OUT_OF_TURN, !in_turn), (OUT_OF_RANGE, byte > 255)])?;
        let byte = byte as u8;
        let addressing = self.message == Message::Address;
        if addressing {
            let reading = byte & 1 == 1;
            self.message = if reading {
                Message::Read
            } else {
                Message::Write
            };
        }
        let mut acknowledged = 0;
        for (position, device) in self.devices.iter_mut().enumerate() {
            let acknowledges = if addressing {
                device.take_address(byte)
            } else {
                device.take_byte(byte)
            };
            acknowledged |= (acknowledges as u64) << position;
        }
        Ok(acknowledged)
    }

    /// "Value is the bitwise AND of all devices talking, 255 if none."
    fn get(&mut self, ack: u64) -> Answer {
        refuse_if(&[
            (OUT_OF_TURN, self.message != Message::Read),
            (OUT_OF_RANGE, ack > 1),
        ])?;
        let mut value = 255;
        for device in &mut self.devices {
            if device.phase == Phase::Talk {
                value &= device.chip.read_and_move();
            }
        }
        if ack == 0 {
            self.deselect_all();
            self.message = Message::Ended;
        }
        Ok(value as u64)
    }

    fn wait(&mut self, position: u64, ticks: u64) -> Answer {
        let device = self.device(position)?;
        refuse_if(&[(COUNT_LIMIT, device.wait_would_pass_limit(ticks))])?;
        device.wait(ticks);
        Ok(0)
    }

    fn oe(&mut self, position: u64, level: u64) -> Answer {
        let chip = &mut self.device(position)?.chip;
        refuse_if(&[(OUT_OF_RANGE, level > 1)])?;
        match chip {
            Chip::Driver(driver) => driver.oe = level == 1,
            Chip::Blinker(_) => return Err(WRONG_DEVICE),
        }
        Ok(0)
    }

    fn ext(&mut self, position: u64, level: u64) -> Answer {
        let chip = &mut self.device(position)?.chip;
        refuse_if(&[(OUT_OF_RANGE, level > 255)])?;
        match chip {
            Chip::Driver(_) => return Err(WRONG_DEVICE),
            Chip::Blinker(blinker) => blinker.ext = level as u8,
        }
        Ok(0)
    }

    /// "Deselects the device until the next START"; of its totals "reset
    /// clears neither".
    fn reset(&mut self, position: u64) -> Answer {
        let device = self.device(position)?;
        device.chip.reset();
        device.phase = Phase::Deaf;
        Ok(0)
    }

    fn lit(&mut self, position: u64, output: u64, ticks: u64) -> Answer {
        let chip = &self.device(position)?.chip;
        refuse_if(&[
            (COUNT_LIMIT, chip.would_pass_limit(ticks)),
            (NO_OUTPUT, output >= chip.outputs()),
        ])?;
        Ok(chip.lit_ticks(output as usize, ticks))
    }

    fn pin(&mut self, position: u64, output: u64) -> Answer {
        let chip = &self.device(position)?.chip;
        refuse_if(&[(NO_OUTPUT, output >= chip.outputs())])?;
        Ok(chip.pin(output as usize))
    }
}

impl Totals {
    /// "Lit plus unlit time equals the time waited."
    pub fn waited(&self) -> u64 {
        self.lit + self.unlit
    }
}

impl Device {
    /// As it is when it has just been added.
    fn with(chip: Chip) -> Device {
        Device {
            phase: Phase::Deaf,
            chip,
            totals: Default::default(),
        }
    }

    /// "When a wait is above 2^48, asleep or not, or would bring an output's
    /// two totals together above 2^56", or where the count would pass its
    /// limit.
    pub fn wait_would_pass_limit(&self, ticks: u64) -> bool {
        let outputs = self.chip.outputs() as usize;
        let total_passes = |totals: &Totals| ticks > MAX_TOTAL - totals.waited();
        self.chip.would_pass_limit(ticks) || self.totals[..outputs].iter().any(total_passes)
    }

    /// Adds to each output's totals "what a lit question just before would
    /// have answered", and what is left of the wait. It is counted by periods,
    /// so that a short wait takes no longer than a long one.
    fn wait(&mut self, ticks: u64) {
        for output in 0..self.chip.outputs() as usize {
            let lit = self.chip.lit_ticks_by_periods(output, ticks);
            self.totals[output].lit += lit;
            self.totals[output].unlit += ticks - lit;
        }
        self.chip.advance(ticks);
    }

    /// Undoes `wait`, where nothing has happened since.
    fn take_back(&mut self, ticks: u64) {
        self.chip.go_back(ticks);
        for output in 0..self.chip.outputs() as usize {
            let lit = self.chip.lit_ticks_by_periods(output, ticks);
            self.totals[output].lit -= lit;
            self.totals[output].unlit -= ticks - lit;
        }
    }

    /// The byte after START; gives the acknowledge.
    fn take_address(&mut self, byte: u8) -> bool {
        self.phase = match byte {
            0x06 if self.chip.is_driver() => Phase::ResetCall(0),
            0x06 | 0x07 => Phase::Deaf,
            _ if !self.chip.answers(byte >> 1) => Phase::Deaf,
            _ if byte & 1 == 1 => Phase::Talk,
            _ => Phase::Control,
        };
        self.phase != Phase::Deaf
    }

    /// A later byte of a write; gives the acknowledge.
    fn take_byte(&mut self, byte: u8) -> bool {
        self.phase = match (self.phase, byte) {
            (Phase::Control, _) if self.chip.set_control(byte) => Phase::Data,
            (Phase::Data, _) => {
                self.chip.write_and_move(byte);
                Phase::Data
            }
            (Phase::ResetCall(0), 0xA5) => Phase::ResetCall(1),
            (Phase::ResetCall(1), 0x5A) => Phase::ResetCall(2),
            _ => Phase::Deaf,
        };
        self.phase != Phase::Deaf
    }

    /// "STOP directly after the two right bytes resets all drivers that took
    /// them"; "at any STOP on the bus an awake driver puts all of them into
    /// effect".
    fn stop(&mut self) {
        if let Chip::Driver(driver) = &mut self.chip {
            if self.phase == Phase::ResetCall(2) {
                driver.reset();
            } else if driver.awake() {
                driver.commit();
            }
        }
    }
}

impl Chip {
    fn fresh(chip: u64, address: u64) -> Result<Chip, u64> {
        match chip {
            9635 => Driver::fresh(&PCA9635, address).map(Chip::Driver),
            9634 => Driver::fresh(&PCA9634, address).map(Chip::Driver),
            9531 => Blinker::fresh(BlinkerKind::Pca9531, address).map(Chip::Blinker),
            9551 => Blinker::fresh(BlinkerKind::Pca9551, address).map(Chip::Blinker),
            _ => Err(UNKNOWN_CHIP),
        }
    }

    pub fn is_driver(&self) -> bool {
        matches!(self, Chip::Driver(_))
    }

    pub fn outputs(&self) -> u64 {
        match self {
            Chip::Driver(driver) => driver.layout.outputs as u64,
            Chip::Blinker(_) => 8,
        }
    }

    /// The device's own 7-bit address on the bus.
    pub fn own_address(&self) -> u8 {
        match self {
            Chip::Driver(driver) => driver.address,
            Chip::Blinker(blinker) => 0x60 | blinker.pins,
        }
    }

    pub fn control(&self) -> u8 {
        match self {
            Chip::Driver(driver) => driver.control,
            Chip::Blinker(blinker) => blinker.control,
        }
    }

    /// The register that the control byte points to.
    pub fn pointer(&self) -> u8 {
        match self {
            Chip::Driver(driver) => driver.pointer(),
            Chip::Blinker(blinker) => blinker.pointer(),
        }
    }

    /// The tick or step count t.
    pub fn count(&self) -> u64 {
        match self {
            Chip::Driver(driver) => driver.ticks,
            Chip::Blinker(blinker) => blinker.steps,
        }
    }

    /// "Blinkers are always awake."
    pub fn awake(&self) -> bool {
        match self {
            Chip::Driver(driver) => driver.awake(),
            Chip::Blinker(_) => true,
        }
    }

    /// Whether the device answers a 7-bit address other than 3.
    pub fn answers(&self, address: u8) -> bool {
        match self {
            Chip::Driver(driver) => driver.answers(address),
            Chip::Blinker(_) => address == self.own_address(),
        }
    }

    /// Takes a legal control byte; an illegal one is left out.
    fn set_control(&mut self, byte: u8) -> bool {
        match self {
            Chip::Driver(driver) => driver.set_control(byte),
            Chip::Blinker(blinker) => blinker.set_control(byte),
        }
    }

    fn write_and_move(&mut self, byte: u8) {
        match self {
            Chip::Driver(driver) => {
                driver.write(byte);
                driver.move_pointer();
            }
            Chip::Blinker(blinker) => {
                blinker.write(byte);
                blinker.move_pointer();
            }
        }
    }

    fn read_and_move(&mut self) -> u8 {
        match self {
            Chip::Driver(driver) => {
                let byte = driver.read();
                driver.move_pointer();
                byte
            }
            Chip::Blinker(blinker) => {
                let byte = blinker.read();
                blinker.move_pointer();
                byte
            }
        }
    }

    /// Where a wait or a window is too long for the device's count, or for any
    /// count.
    fn would_pass_limit(&self, ticks: u64) -> bool {
        ticks > MAX_COUNT || self.awake() && ticks > MAX_COUNT - self.count()
    }

    fn advance(&mut self, ticks: u64) {
        match self {
            Chip::Driver(driver) => driver.advance(ticks),
            Chip::Blinker(blinker) => blinker.steps += ticks,
        }
    }

    /// Undoes `advance`.
    fn go_back(&mut self, ticks: u64) {
        match self {
            Chip::Driver(driver) => driver.go_back(ticks),
            Chip::Blinker(blinker) => blinker.steps -= ticks,
        }
    }

    fn reset(&mut self) {
        match self {
            Chip::Driver(driver) => driver.reset(),
            Chip::Blinker(blinker) => blinker.reset(),
        }
    }

    /// The lamp of an output at count t.
    fn is_lit(&self, output: usize, t: u64) -> bool {
        match self {
            Chip::Driver(driver) => driver.is_lit(output, t),
            Chip::Blinker(blinker) => blinker.is_lit(output, t),
        }
    }

    /// Lit ticks among 0 .. end-1, by whole periods and remainders.
    fn lit_below(&self, output: usize, end: u64) -> u64 {
        match self {
            Chip::Driver(driver) => driver.lit_below(output, end),
            Chip::Blinker(blinker) => blinker.lit_below(output, end),
        }
    }

    /// Lit ticks of the window of w ticks from now on, as a question has them.
    fn lit_ticks(&self, output: usize, w: u64) -> u64 {
        if self.awake() && w <= SHORT_WINDOW {
            self.lit_ticks_by_loop(output, w)
        } else {
            self.lit_ticks_by_periods(output, w)
        }
    }

    /// Of an awake device.
    fn lit_ticks_by_loop(&self, output: usize, w: u64) -> u64 {
        let t = self.count();
        (t..t + w).filter(|&tick| self.is_lit(output, tick)).count() as u64
    }

    /// "Asleep: w times the present state."
    fn lit_ticks_by_periods(&self, output: usize, w: u64) -> u64 {
        let t = self.count();
        if self.awake() {
            self.lit_below(output, t + w) - self.lit_below(output, t)
        } else {
            w * self.is_lit(output, t) as u64
        }
    }

    fn pin(&self, output: usize) -> u64 {
        match self {
            Chip::Driver(driver) => driver.pin(output),
            Chip::Blinker(blinker) => blinker.pin(output),
        }
    }
}

/// Pin levels.
const LOW: u64 = 0;
const HIGH: u64 = 1;
const HIGH_Z: u64 = 2;

/// The two selector bits of an output, four outputs to a register, output 0
/// lowest.
fn selector(registers: &[u8], output: usize) -> u8 {
    registers[output / 4] >> (2 * (output % 4)) & 3
}

/// Ticks x among 0 .. end-1 with x mod period < on.
fn pulse_ticks_below(end: u64, period: u64, on: u64) -> u64 {
    end / period * on + (end % period).min(on)
}

/// Register numbers of a driver; MODE1, MODE2 and PWM0 are the same on both.
#[derive(Debug)]
pub struct Layout {
    pub outputs: u8,
    pub grppwm: u8,
    pub grpfreq: u8,
    pub ledout: u8,
    pub subadr1: u8,
    pub allcalladr: u8,
}

pub const PCA9635: Layout = Layout {
    outputs: 16,
    grppwm: 0x12,
    grpfreq: 0x13,
    ledout: 0x14,
    subadr1: 0x18,
    allcalladr: 0x1B,
};

pub const PCA9634: Layout = Layout {
    outputs: 8,
    grppwm: 0x0A,
    grpfreq: 0x0B,
    ledout: 0x0C,
    subadr1: 0x0E,
    allcalladr: 0x11,
};

pub const MODE1: u8 = 0;
pub const MODE2: u8 = 1;
pub const PWM0: u8 = 2;

pub const SLEEP: u8 = 0x10;
const SUB: [u8; 3] = [0x08, 0x04, 0x02];
const ALLCALL: u8 = 0x01;
const DMBLNK: u8 = 0x20;
const INVRT: u8 = 0x10;
const OCH: u8 = 0x08;
const OUTDRV: u8 = 0x04;
const OUTNE: u8 = 0x03;

/// Ticks of one period of group dimming.
const DIMMING_PERIOD: u64 = 131_072;
/// Ticks of one step of group blinking; a period has G+1 steps.
const BLINK_STEP: u64 = 1_048_576;

#[derive(Clone, Debug)]
pub struct Driver {
    pub layout: &'static Layout,
    pub address: u8,
    pub oe: bool,
    pub control: u8,
    pub ticks: u64,
    /// All registers as written, by register number.
    pub written: [u8; 28],
    /// The copy in effect; used for PWM0 through LEDOUT only.
    pub in_effect: [u8; 28],
}

impl Driver {
    fn fresh(layout: &'static Layout, address: u64) -> Result<Driver, u64> {
        if address > 127 || address == 3 || address == 112 {
            return Err(BAD_ADDRESS);
        }
        let mut driver = Driver {
            layout,
            address: address as u8,
            oe: false,
            control: 0,
            ticks: 0,
            written: [0; 28],
            in_effect: [0; 28],
        };
        driver.reset();
        Ok(driver)
    }

    /// "Reset keeps OE and outside levels"; "reset sets t to 0, both copies to
    /// reset values".
    fn reset(&mut self) {
        let subadr1 = self.layout.subadr1 as usize;
        self.control = 0x80;
        self.ticks = 0;
        self.written = [0; 28];
        self.written[MODE1 as usize] = SLEEP | ALLCALL;
        self.written[MODE2 as usize] = 0x05;
        self.written[self.layout.grppwm as usize] = 0xFF;
        self.written[subadr1] = 0xE2;
        self.written[subadr1 + 1] = 0xE4;
        self.written[subadr1 + 2] = 0xE8;
        self.written[self.layout.allcalladr as usize] = 0xE0;
        self.in_effect = self.written;
    }

    fn mode1(&self) -> u8 {
        self.written[MODE1 as usize]
    }

    fn mode2(&self) -> u8 {
        self.written[MODE2 as usize]
    }

    pub fn awake(&self) -> bool {
        self.mode1() & SLEEP == 0
    }

    /// "Asleep, t stands still."
    fn advance(&mut self, ticks: u64) {
        if self.awake() {
            self.ticks += ticks;
        }
    }

    /// Undoes `advance`, where nothing has happened since.
    fn go_back(&mut self, ticks: u64) {
        if self.awake() {
            self.ticks -= ticks;
        }
    }

    fn answers(&self, address: u8) -> bool {
        let subadr1 = self.layout.subadr1 as usize;
        let holds = |register: usize| self.written[register] >> 1 == address;
        let sub_call = (0..3).any(|k| self.mode1() & SUB[k] != 0 && holds(subadr1 + k));
        let all_call = self.mode1() & ALLCALL != 0 && holds(self.layout.allcalladr as usize);
        address == self.address || all_call || sub_call
    }

    /// The auto-increment option, bits 7..5 of the control byte.
    pub fn option(&self) -> u8 {
        self.control >> 5
    }

    /// The pointed register, bits 4..0 of the control byte.
    pub fn pointer(&self) -> u8 {
        self.control & 0x1F
    }

    /// "Legal: option 000, 100 to 111, and an existing register."
    fn set_control(&mut self, byte: u8) -> bool {
        let legal_option = matches!(byte >> 5, 0b000 | 0b100..=0b111);
        let legal = legal_option && byte & 0x1F <= self.layout.allcalladr;
        if legal {
            self.control = byte;
        }
        legal
    }

    /// First and last register of an auto-increment option.
    fn option_range(&self) -> (u8, u8) {
        let layout = self.layout;
        match self.option() {
            0b101 => (PWM0, layout.grppwm - 1),
            0b110 => (layout.grppwm, layout.grpfreq),
            0b111 => (PWM0, layout.grpfreq),
            _ => (0, layout.allcalladr),
        }
    }

    /// "At the option's last go to its first; else at the chip's last go to
    /// 0; else add one."
    fn move_pointer(&mut self) {
        if self.option() == 0 {
            return;
        }
        let (first, last) = self.option_range();
        let pointer = self.pointer();
        let next = if pointer == last {
            first
        } else if pointer == self.layout.allcalladr {
            0
        } else {
            pointer + 1
        };
        self.control = self.control & 0xE0 | next;
    }

    /// "MODE1 bits 7..5 read as the control byte's"; other registers read as
    /// written.
    fn read(&self) -> u8 {
        match self.pointer() {
            MODE1 => self.control & 0xE0 | self.mode1(),
            register => self.written[register as usize],
        }
    }

    fn write(&mut self, byte: u8) {
        match self.pointer() {
            MODE1 => self.write_mode1(byte),
            MODE2 => self.written[MODE2 as usize] = byte & 0x3F,
            register if register >= self.layout.subadr1 => {
                self.written[register as usize] = byte & 0xFE
            }
            register => self.write_lamp_register(register as usize, byte),
        }
    }

    /// "Clearing SLEEP from 1 sets the tick count t to 0."
    fn write_mode1(&mut self, byte: u8) {
        let was_asleep = !self.awake();
        self.written[MODE1 as usize] = byte & 0x1F;
        if was_asleep && self.awake() {
            self.ticks = 0;
        }
    }

    /// "With OCH = 1 and awake, the byte just written takes effect at its
    /// acknowledge."
    fn write_lamp_register(&mut self, register: usize, byte: u8) {
        self.written[register] = byte;
        if self.mode2() & OCH != 0 && self.awake() {
            self.in_effect[register] = byte;
        }
    }

    /// Puts PWM0 through LEDOUT into effect.
    fn commit(&mut self) {
        let lamp_registers = PWM0 as usize..self.layout.subadr1 as usize;
        self.in_effect[lamp_registers.clone()].copy_from_slice(&self.written[lamp_registers]);
    }

    /// The output's two LEDOUT bits in effect.
    pub fn mode(&self, output: usize) -> u8 {
        selector(&self.in_effect[self.layout.ledout as usize..], output)
    }

    /// The output's PWM register in effect, N.
    pub fn brightness(&self, output: usize) -> u64 {
        self.in_effect[PWM0 as usize + output] as u64
    }

    pub fn blinking(&self) -> bool {
        self.mode2() & DMBLNK != 0
    }

    /// Period and lit ticks per period of the group test. With DMBLNK 1 "the
    /// period is (G+1) times 1,048,576 ticks, lit for the first M(G+1) times
    /// 4,096".
    pub fn group_pulse(&self) -> (u64, u64) {
        let m = self.in_effect[self.layout.grppwm as usize] as u64;
        let g = self.in_effect[self.layout.grpfreq as usize] as u64;
        if self.blinking() {
            (BLINK_STEP * (g + 1), 4096 * m * (g + 1))
        } else {
            (DIMMING_PERIOD, 512 * m)
        }
    }

    fn is_lit(&self, output: usize, t: u64) -> bool {
        let individual = t % 256 < self.brightness(output);
        let (period, on) = self.group_pulse();
        match self.mode(output) {
            0b00 => false,
            0b01 => true,
            0b10 => individual,
            _ => individual && t % period < on,
        }
    }

    fn lit_below(&self, output: usize, end: u64) -> u64 {
        let n = self.brightness(output);
        let (period, on) = self.group_pulse();
        match self.mode(output) {
            0b00 => 0,
            0b01 => end,
            0b10 => pulse_ticks_below(end, 256, n),
            _ => group_ticks_below(end, n, period, on),
        }
    }

    fn pin(&self, output: usize) -> u64 {
        let driven_high = if self.mode2() & OUTDRV != 0 {
            HIGH
        } else {
            HIGH_Z
        };
        if self.oe {
            return match self.mode2() & OUTNE {
                0b00 => LOW,
                0b01 => driven_high,
                _ => HIGH_Z,
            };
        }
        let inverted = self.mode2() & INVRT != 0;
        if self.is_lit(output, self.ticks) != inverted {
            LOW
        } else {
            driven_high
        }
    }
}

/// Ticks x among 0 .. end-1 with x mod 256 < n and x mod period < on.
/// The period is a multiple of 256, of dimming as of blinking, so every
/// period has its lit ticks where the first one has them.
fn group_ticks_below(end: u64, n: u64, period: u64, on: u64) -> u64 {
    let lit_in_first = |ticks: u64| pulse_ticks_below(ticks.min(on), 256, n);
    end / period * lit_in_first(period) + lit_in_first(end % period)
}

#[derive(Clone, Copy, Debug, PartialEq, Eq)]
pub enum BlinkerKind {
    Pca9531,
    Pca9551,
}

/// Register numbers of a blinker.
pub const INPUT: u8 = 0;
const PSC: [usize; 2] = [1, 3];
const PWM: [usize; 2] = [2, 4];
const LS0: usize = 5;
/// Control bit I.
const INCREMENT: u8 = 0x10;

#[derive(Clone, Debug)]
pub struct Blinker {
    pub kind: BlinkerKind,
    /// Levels of the address pins A2..A0.
    pub pins: u8,
    /// Outside levels, bit i for output i.
    pub ext: u8,
    pub control: u8,
    pub steps: u64,
    /// Registers by number; INPUT is worked out when read.
    pub registers: [u8; 7],
}

impl Blinker {
    fn fresh(kind: BlinkerKind, address: u64) -> Result<Blinker, u64> {
        if address > 7 {
            return Err(BAD_ADDRESS);
        }
        let mut blinker = Blinker {
            kind,
            pins: address as u8,
            ext: 255,
            control: 0,
            steps: 0,
            registers: [0; 7],
        };
        blinker.reset();
        Ok(blinker)
    }

    fn reset(&mut self) {
        let (psc, ls) = match self.kind {
            BlinkerKind::Pca9531 => (0x00, 0x00),
            BlinkerKind::Pca9551 => (0xFF, 0x55),
        };
        self.control = 0x00;
        self.steps = 0;
        self.registers = [0, psc, 0x80, psc, 0x80, ls, ls];
    }

    pub fn pointer(&self) -> u8 {
        self.control & 0x07
    }

    /// "Control 0 0 0 I 0 B2 B1 B0; other bits set, or register 7, is
    /// illegal."
    fn set_control(&mut self, byte: u8) -> bool {
        let legal = byte & 0xE8 == 0 && byte & 0x07 != 7;
        if legal {
            self.control = byte;
        }
        legal
    }

    /// "With I = 1 the pointer adds one and 6 goes to 0; with I = 0 it stays."
    fn move_pointer(&mut self) {
        if self.control & INCREMENT != 0 {
            self.control = INCREMENT | ((self.pointer() + 1) % 7);
        }
    }

    fn write(&mut self, byte: u8) {
        if self.pointer() != INPUT {
            self.registers[self.pointer() as usize] = byte;
        }
    }

    fn read(&self) -> u8 {
        match self.pointer() {
            INPUT => self.input(),
            register => self.registers[register as usize],
        }
    }

    /// "It reads 0 where the output is lit, else the outside level."
    fn input(&self) -> u8 {
        let lit = (0..8)
            .filter(|&output| self.is_lit(output, self.steps))
            .fold(0, |bits, output| bits | 1 << output);
        self.ext & !lit
    }

    /// The output's two LS bits.
    pub fn mode(&self, output: usize) -> u8 {
        selector(&self.registers[LS0..], output)
    }

    /// PSC+1 and PWM of the blink rate of mode 10 or 11.
    pub fn rate(&self, mode: u8) -> (u64, u64) {
        let k = (mode & 1) as usize;
        let divider = self.registers[PSC[k]] as u64 + 1;
        (divider, self.registers[PWM[k]] as u64)
    }

    fn is_lit(&self, output: usize, t: u64) -> bool {
        let mode = self.mode(output);
        let (divider, pwm) = self.rate(mode);
        let c = t / divider % 256;
        match (self.kind, mode) {
            (BlinkerKind::Pca9531, 0b00) => false,
            (BlinkerKind::Pca9531, 0b01) => true,
            (BlinkerKind::Pca9531, _) => c < pwm,
            (BlinkerKind::Pca9551, 0b00) => true,
            (BlinkerKind::Pca9551, 0b01) => false,
            (BlinkerKind::Pca9551, _) => c >= pwm,
        }
    }

    fn lit_below(&self, output: usize, end: u64) -> u64 {
        let mode = self.mode(output);
        let (divider, pwm) = self.rate(mode);
        let below_pwm = pulse_ticks_below(end, 256 * divider, pwm * divider);
        match (self.kind, mode) {
            (BlinkerKind::Pca9531, 0b00) => 0,
            (BlinkerKind::Pca9531, 0b01) => end,
            (BlinkerKind::Pca9531, _) => below_pwm,
            (BlinkerKind::Pca9551, 0b00) => end,
            (BlinkerKind::Pca9551, 0b01) => 0,
            (BlinkerKind::Pca9551, _) => end - below_pwm,
        }
    }

    /// "Blinker: lit low, unlit 2."
    fn pin(&self, output: usize) -> u64 {
        if self.is_lit(output, self.steps) {
            LOW
        } else {
            HIGH_Z
        }
    }
}

#[cfg(test)]
mod tests {
    use super::*;
    use crate::check::damage_share;
    use crate::generate::{self, Random};
    use crate::text;

    const DRIVERS: [&Layout; 2] = [&PCA9635, &PCA9634];

    /// A register value, often at an edge.
    fn edge_byte(random: &mut Random) -> u8 {
        match random.below(4) {
            0 => *random.pick(&[0, 1, 2, 127, 128, 254, 255]),
            _ => random.below(256) as u8,
        }
    }

    fn random_driver(random: &mut Random, layout: &'static Layout) -> Driver {
        let mut driver = Driver::fresh(layout, 21).unwrap();
        for register in &mut driver.in_effect {
            *register = edge_byte(random);
        }
        if random.chance(50) {
            driver.in_effect[layout.grpfreq as usize] = random.below(3) as u8;
        }
        driver.written[MODE1 as usize] = 0;
        driver.written[MODE2 as usize] = random.below(64) as u8;
        driver
    }

    /// With DMBLNK 1 and all outputs in mode 11.
    fn random_blinking_driver(random: &mut Random, layout: &'static Layout) -> Driver {
        let mut driver = random_driver(random, layout);
        driver.written[MODE2 as usize] |= DMBLNK;
        driver.in_effect[layout.ledout as usize..layout.subadr1 as usize].fill(0xFF);
        driver
    }

    /// N of an output, M and G.
    fn brightness_and_group(driver: &Driver, output: u64) -> (u64, u64, u64) {
        let in_effect = |register: u8| driver.in_effect[register as usize] as u64;
        let layout = driver.layout;
        (
            in_effect(PWM0 + output as u8),
            in_effect(layout.grppwm),
            in_effect(layout.grpfreq),
        )
    }

    /// Code and value of `lit` for a driver alone on a bus, standing at t.
    fn answer_to_lit(driver: &Driver, t: u64, output: u64, w: u64) -> (u64, u64) {
        let mut bus = Bus::new();
        bus.devices.push(Device::with(Chip::Driver(driver.clone())));
        set_count(&mut bus.devices[0].chip, t);
        bus.apply(Event::Lit {
            device: 0,
            output,
            ticks: w,
        })
    }

    fn random_blinker(random: &mut Random, kind: BlinkerKind) -> Blinker {
        let mut blinker = Blinker::fresh(kind, 5).unwrap();
        for register in &mut blinker.registers {
            *register = edge_byte(random);
        }
        blinker
    }

    /// Counts of every size, often close to a multiple of a period.
    fn random_count(random: &mut Random, period: u64) -> u64 {
        let bits = random.below(48) + 1;
        let any = random.below(1 << bits);
        match random.below(3) {
            0 => any,
            _ => (any / period * period + random.below(9)).saturating_sub(4),
        }
    }

    /// A count within 300 ticks of where the group test of a blinking driver
    /// begins or ceases to hold.
    fn count_near_blink_edge(random: &mut Random, driver: &Driver) -> u64 {
        let (period, on) = driver.group_pulse();
        let start = random.below(MAX_COUNT / period) * period;
        let edge = start + random.pick(&[0, on]);
        (edge + random.below(601)).saturating_sub(300)
    }

    fn period_of(chip: &Chip, output: usize) -> u64 {
        match chip {
            Chip::Driver(driver) if driver.mode(output) == 0b11 => driver.group_pulse().0,
            Chip::Driver(_) => 256,
            Chip::Blinker(blinker) => 256 * blinker.rate(blinker.mode(output)).0,
        }
    }

    fn set_count(chip: &mut Chip, count: u64) {
        match chip {
            Chip::Driver(driver) => driver.ticks = count,
            Chip::Blinker(blinker) => blinker.steps = count,
        }
    }

    fn assert_both_ways_agree(chip: &Chip, output: usize, w: u64) {
        let by_loop = chip.lit_ticks_by_loop(output, w);
        let by_periods = chip.lit_ticks_by_periods(output, w);
        assert_eq!(by_loop, by_periods, "output {output} w {w} {chip:?}");
    }

    /// Compares both ways on windows of up to `longest` ticks at any count.
    fn compare_both_ways(chip: &mut Chip, random: &mut Random, longest: u64) {
        for output in 0..chip.outputs() as usize {
            let w = random.below(longest + 1);
            let t = random_count(random, period_of(chip, output)).min(MAX_COUNT - w);
            set_count(chip, t);
            assert_both_ways_agree(chip, output, w);
        }
    }

    fn random_chip(random: &mut Random, kind: u64) -> Chip {
        match kind {
            0 => Chip::Driver(random_driver(random, &PCA9635)),
            1 => Chip::Driver(random_driver(random, &PCA9634)),
            2 => Chip::Blinker(random_blinker(random, BlinkerKind::Pca9531)),
            _ => Chip::Blinker(random_blinker(random, BlinkerKind::Pca9551)),
        }
    }

    #[test]
    fn both_ways_agree_on_short_windows() {
        let mut random = Random::new(1);
        for round in 0..4000 {
            let mut chip = random_chip(&mut random, round % 4);
            compare_both_ways(&mut chip, &mut random, 600);
        }
    }

    #[test]
    fn both_ways_agree_on_long_windows() {
        let mut random = Random::new(2);
        for round in 0..40 {
            let mut chip = random_chip(&mut random, round % 4);
            compare_both_ways(&mut chip, &mut random, 300_000);
        }
    }

    /// Windows of two to five blink periods, for the two shortest periods.
    #[test]
    fn both_ways_agree_over_blink_periods() {
        let mut random = Random::new(3);
        for round in 0..12 {
            let layout = DRIVERS[round % 2];
            let mut driver = random_blinking_driver(&mut random, layout);
            driver.in_effect[layout.grpfreq as usize] = random.below(2) as u8;
            let w = driver.group_pulse().0 * (2 + random.below(3)) + random.below(BLINK_STEP);
            driver.ticks = count_near_blink_edge(&mut random, &driver).min(MAX_COUNT - w);
            let output = random.below(layout.outputs as u64) as usize;
            assert_both_ways_agree(&Chip::Driver(driver), output, w);
        }
    }

    /// Short windows at either edge of a blink, for any period.
    #[test]
    fn both_ways_agree_near_blink_edges() {
        let mut random = Random::new(4);
        for round in 0..4000 {
            let layout = DRIVERS[round % 2];
            let mut driver = random_blinking_driver(&mut random, layout);
            let w = random.below(1000);
            driver.ticks = count_near_blink_edge(&mut random, &driver).min(MAX_COUNT - w);
            let output = random.below(layout.outputs as u64) as usize;
            assert_both_ways_agree(&Chip::Driver(driver), output, w);
        }
    }

    /// "Any whole period holds exactly 16MN(G+1) lit ticks", from the earliest
    /// to the latest start.
    #[test]
    fn whole_blink_periods() {
        let mut random = Random::new(7);
        for round in 0..4000 {
            let layout = DRIVERS[round % 2];
            let driver = random_blinking_driver(&mut random, layout);
            let output = random.below(layout.outputs as u64);
            let (n, m, g) = brightness_and_group(&driver, output);
            let period = 1_048_576 * (g + 1);
            let latest = MAX_COUNT - period;
            let at_edge = count_near_blink_edge(&mut random, &driver).min(latest);
            let anywhere = random.below(latest + 1);
            let t = *random.pick(&[0, latest, at_edge, anywhere]);
            let answer = answer_to_lit(&driver, t, output, period);
            assert_eq!(answer, (0, 16 * m * n * (g + 1)), "t {t} {driver:?}");
        }
    }

    /// "Lit for the first M(G+1) times 4,096": they hold all lit ticks of a
    /// period, and the rest has none.
    #[test]
    fn blink_periods_begin_lit() {
        let mut random = Random::new(8);
        for round in 0..4000 {
            let layout = DRIVERS[round % 2];
            let driver = random_blinking_driver(&mut random, layout);
            let output = random.below(layout.outputs as u64);
            let (n, m, g) = brightness_and_group(&driver, output);
            let period = 1_048_576 * (g + 1);
            let on = m * (g + 1) * 4096;
            let t = random.below(MAX_COUNT / period) * period;
            let first = answer_to_lit(&driver, t, output, on);
            let rest = answer_to_lit(&driver, t + on, output, period - on);
            assert_eq!(first, (0, 16 * m * n * (g + 1)), "t {t} {driver:?}");
            assert_eq!(rest, (0, 0), "t {t} {driver:?}");
        }
    }

    /// "256 steps are 10.737 s": G 255, and M 128 for half of it.
    #[test]
    fn the_slowest_blink() {
        let mut random = Random::new(9);
        for layout in DRIVERS {
            let mut driver = random_blinking_driver(&mut random, layout);
            driver.in_effect[PWM0 as usize] = 1;
            driver.in_effect[layout.grppwm as usize] = 128;
            driver.in_effect[layout.grpfreq as usize] = 255;
            let (period, on) = driver.group_pulse();
            let nanoseconds = 40 * period;
            assert_eq!(nanoseconds / 1_000_000, 10_737);
            assert_eq!(period, 268_435_456);
            assert_eq!(on, period / 2);
            let lit_at = |t| driver.is_lit(0, t);
            assert!(lit_at(0) && lit_at(on - 256));
            assert!(!lit_at(on) && !lit_at(period - 256));
            assert!(lit_at(period));
        }
    }

    /// A window is the sum of its two parts, also above the short windows.
    #[test]
    fn windows_add_up() {
        let mut random = Random::new(5);
        for round in 0..4000 {
            let mut chip = random_chip(&mut random, round % 4);
            let output = random.below(chip.outputs()) as usize;
            let t = random.below(MAX_COUNT);
            let w = random.below(MAX_COUNT - t + 1);
            let first = random.below(w + 1);
            set_count(&mut chip, t);
            let whole = chip.lit_ticks(output, w);
            let part = chip.lit_ticks(output, first);
            set_count(&mut chip, t + first);
            assert_eq!(whole, part + chip.lit_ticks(output, w - first));
        }
    }

    #[test]
    fn asleep_the_lamp_stands_still() {
        let mut random = Random::new(6);
        for _ in 0..500 {
            let mut driver = random_driver(&mut random, &PCA9635);
            driver.written[MODE1 as usize] = SLEEP;
            driver.ticks = random.below(MAX_COUNT);
            let chip = Chip::Driver(driver);
            let expected = if chip.is_lit(3, chip.count()) {
                9999
            } else {
                0
            };
            assert_eq!(chip.lit_ticks(3, 9999), expected);
        }
    }

    /// A bus of fresh boards, each a kind and an address.
    fn bus_of(boards: &[(u64, u64)]) -> Bus {
        let mut bus = Bus::new();
        for &(chip, address) in boards {
            assert_eq!(bus.apply(Event::Add { chip, address }).0, 0);
        }
        bus
    }

    /// The values of accepted puts.
    fn put_all(bus: &mut Bus, bytes: &[u64]) -> Vec<u64> {
        let put = |&byte| bus.put(byte).unwrap();
        bytes.iter().map(put).collect()
    }

    /// START, then the values of the puts.
    fn write(bus: &mut Bus, bytes: &[u64]) -> Vec<u64> {
        bus.apply(Event::Start);
        put_all(bus, bytes)
    }

    /// Drivers at positions 1, 4 and 7: 2 + 16 + 128 = 146.
    const DRIVERS_AMONG_BLINKERS: [(u64, u64); 8] = [
        (9531, 0),
        (9635, 21),
        (9551, 1),
        (9531, 2),
        (9634, 22),
        (9551, 3),
        (9531, 4),
        (9635, 23),
    ];

    #[test]
    fn eight_drivers_acknowledge_the_all_call() {
        let boards = [(9635, 21), (9634, 22)].repeat(4);
        let mut bus = bus_of(&boards);
        assert_eq!(write(&mut bus, &[0xE0, 0x80, 0x01]), [255; 3]);
        assert_eq!(write(&mut bus, &[0xE1]), [255]);
    }

    #[test]
    fn drivers_acknowledge_among_blinkers() {
        let mut bus = bus_of(&DRIVERS_AMONG_BLINKERS);
        assert_eq!(write(&mut bus, &[0xE0, 0x02, 5]), [146; 3]);
        assert_eq!(write(&mut bus, &[0x06, 0xA5, 0x5A, 0]), [146, 146, 146, 0]);
        // Position 4 without ALLCALL.
        assert_eq!(write(&mut bus, &[44, 0x00, 0x00]), [16; 3]);
        assert_eq!(write(&mut bus, &[0xE0]), [130]);
        assert_eq!(write(&mut bus, &[0x06]), [146]);
    }

    /// A 9634 and a 9531 at address 97, positions 2 and 5: 4 + 32 = 36.
    #[test]
    fn a_control_byte_may_suit_one_of_two_boards() {
        let boards = [21, 22, 97, 23, 24].map(|address| (9634, address));
        let mut bus = bus_of(&[&boards[..], &[(9531, 1)]].concat());
        assert_eq!(write(&mut bus, &[194, 0x11, 0, 0]), [36; 4]);
        assert_eq!(write(&mut bus, &[194, 0x12, 0, 0]), [36, 32, 32, 32]);
        assert_eq!(write(&mut bus, &[194, 0x80, 0, 0]), [36, 4, 4, 4]);
        assert_eq!(write(&mut bus, &[194, 0x17, 0, 0]), [36, 0, 0, 0]);
        assert_eq!(write(&mut bus, &[195]), [36]);
    }

    #[test]
    fn a_reset_ends_the_acknowledges_of_one_board() {
        let mut bus = bus_of(&DRIVERS_AMONG_BLINKERS);
        for bytes in [[0xE0, 0x02], [0x06, 0xA5]] {
            assert_eq!(write(&mut bus, &bytes), [146; 2]);
            bus.apply(Event::Reset { device: 7 });
            assert_eq!(put_all(&mut bus, &[0x5A]), [18]);
        }
    }

    #[test]
    fn nobody_acknowledges() {
        let mut bus = bus_of(&DRIVERS_AMONG_BLINKERS);
        assert_eq!(write(&mut bus, &[0x50, 0x00, 0x01]), [0; 3]);
        assert_eq!(write(&mut bus, &[0x07]), [0]);
        assert_eq!(write(&mut Bus::new(), &[0x06, 0xA5]), [0; 2]);
    }

    /// START, the bytes, STOP.
    fn write_message(bus: &mut Bus, bytes: &[u64]) {
        write(bus, bytes);
        bus.apply(Event::Stop);
    }

    /// The code of a wait.
    fn wait(bus: &mut Bus, device: u64, ticks: u64) -> u64 {
        bus.apply(Event::Wait { device, ticks }).0
    }

    /// A 9635 at address 21, awake, with output 0 on and output 1 at brightness
    /// 64.
    fn bus_with_lamps() -> Bus {
        let mut bus = bus_of(&[(9635, 21)]);
        write_message(&mut bus, &[42, 0x00, 0x01]);
        write_message(&mut bus, &[42, 0x03, 64]);
        write_message(&mut bus, &[42, 0x14, 0b1001]);
        bus
    }

    /// Outputs 0, 1 and 2 of the device at position 0, lit and unlit.
    fn first_totals(bus: &Bus) -> [(u64, u64); 3] {
        [0, 1, 2].map(|output| {
            let totals = bus.devices[0].totals[output];
            (totals.lit, totals.unlit)
        })
    }

    #[test]
    fn a_fresh_device_has_no_totals() {
        let bus = bus_of(&DRIVERS_AMONG_BLINKERS);
        for device in bus.devices {
            assert_eq!(device.totals, [Totals::default(); MAX_OUTPUTS]);
        }
    }

    #[test]
    fn waits_are_summed_lit_and_unlit() {
        let mut bus = bus_with_lamps();
        wait(&mut bus, 0, 100);
        assert_eq!(first_totals(&bus), [(100, 0), (64, 36), (0, 100)]);
        wait(&mut bus, 0, 200);
        assert_eq!(first_totals(&bus), [(300, 0), (108, 192), (0, 300)]);
    }

    /// "An asleep lamp held lit burns too."
    #[test]
    fn asleep_a_lit_lamp_burns() {
        let mut bus = bus_with_lamps();
        wait(&mut bus, 0, 63);
        write_message(&mut bus, &[42, 0x00, 0x11]);
        wait(&mut bus, 0, 1000);
        assert_eq!(first_totals(&bus), [(1063, 0), (1063, 0), (0, 1063)]);
        write_message(&mut bus, &[42, 0x00, 0x01]);
        wait(&mut bus, 0, 64);
        write_message(&mut bus, &[42, 0x00, 0x11]);
        wait(&mut bus, 0, 1000);
        assert_eq!(first_totals(&bus), [(2127, 0), (1127, 1000), (0, 2127)]);
    }

    /// "Reset clears neither", and no more do the reset call, sleeping and
    /// waking.
    #[test]
    fn nothing_clears_totals() {
        let mut bus = bus_with_lamps();
        wait(&mut bus, 0, 100);
        let totals = first_totals(&bus);
        write_message(&mut bus, &[42, 0x00, 0x11]);
        assert_eq!(first_totals(&bus), totals);
        write_message(&mut bus, &[42, 0x00, 0x01]);
        assert_eq!(first_totals(&bus), totals);
        write_message(&mut bus, &[0x06, 0xA5, 0x5A]);
        assert!(!bus.devices[0].chip.awake());
        assert_eq!(first_totals(&bus), totals);
        bus.apply(Event::Reset { device: 0 });
        assert_eq!(first_totals(&bus), totals);
        wait(&mut bus, 0, 10);
        assert_eq!(first_totals(&bus), [(100, 10), (64, 46), (0, 110)]);
    }

    #[test]
    fn a_refused_wait_adds_nothing() {
        let mut bus = bus_with_lamps();
        wait(&mut bus, 0, 100);
        assert_eq!(wait(&mut bus, 0, MAX_COUNT - 99), COUNT_LIMIT);
        assert_eq!(wait(&mut bus, 1, 1), NO_DEVICE);
        assert_eq!(first_totals(&bus), [(100, 0), (64, 36), (0, 100)]);
    }

    /// "When a wait is above 2^48, asleep or not."
    #[test]
    fn a_wait_has_at_most_2_48_ticks() {
        let mut bus = bus_of(&[(9634, 21)]);
        assert_eq!(wait(&mut bus, 0, MAX_COUNT), 0);
        assert_eq!(wait(&mut bus, 0, MAX_COUNT + 1), COUNT_LIMIT);
        assert_eq!(first_totals(&bus), [(0, MAX_COUNT); 3]);
        write_message(&mut bus, &[42, 0x00, 0x01]);
        assert_eq!(wait(&mut bus, 0, MAX_COUNT + 1), COUNT_LIMIT);
        assert_eq!(wait(&mut bus, 0, MAX_COUNT), 0);
        assert_eq!(wait(&mut bus, 0, 1), COUNT_LIMIT);
    }

    /// "Or would bring an output's two totals together above 2^56"; a question
    /// is not refused for it, and no reset makes room.
    #[test]
    fn totals_reach_2_56_and_no_more() {
        let mut bus = bus_with_lamps();
        write_message(&mut bus, &[42, 0x00, 0x11]);
        for _ in 0..256 {
            assert_eq!(wait(&mut bus, 0, MAX_COUNT), 0);
        }
        let full = [(MAX_TOTAL, 0), (MAX_TOTAL, 0), (0, MAX_TOTAL)];
        assert_eq!(wait(&mut bus, 0, 1), COUNT_LIMIT);
        assert_eq!(wait(&mut bus, 0, 0), 0);
        assert_eq!(first_totals(&bus), full);
        let question = Event::Lit {
            device: 0,
            output: 0,
            ticks: MAX_COUNT,
        };
        assert_eq!(bus.apply(question), (0, MAX_COUNT));
        bus.apply(Event::Reset { device: 0 });
        assert_eq!(wait(&mut bus, 0, 1), COUNT_LIMIT);
        assert_eq!(bus.apply_after(1, Event::Start), (COUNT_LIMIT, 0));
        assert_eq!(bus.apply_after(0, Event::Start), (0, 0));
        assert_eq!(first_totals(&bus), full);
    }

    /// A driver's time leaves a blinker's totals alone, and is no bar to them.
    #[test]
    fn a_blinker_sums_its_own_steps() {
        let mut bus = bus_of(&[(9531, 0), (9635, 21)]);
        write_message(&mut bus, &[192, 0x05, 0b1001]);
        bus.apply_after(1000, Event::Start);
        assert_eq!(first_totals(&bus), [(0, 0); 3]);
        assert_eq!(
            bus.devices[1].totals,
            [Totals {
                lit: 0,
                unlit: 1000
            }; 16]
        );
        wait(&mut bus, 0, 300);
        assert_eq!(first_totals(&bus), [(300, 0), (172, 128), (0, 300)]);
        assert_eq!(bus.devices[0].totals[8..], [Totals::default(); 8]);
        assert_eq!(bus.devices[1].totals[15].waited(), 1000);
    }

    /// The time of a line and its own wait are judged one after the other; a
    /// refused line takes its time back.
    #[test]
    fn a_wait_is_judged_with_the_totals_after_the_time() {
        let mut bus = bus_with_lamps();
        write_message(&mut bus, &[42, 0x00, 0x11]);
        for _ in 0..255 {
            wait(&mut bus, 0, MAX_COUNT);
        }
        wait(&mut bus, 0, MAX_COUNT - 10);
        let before = first_totals(&bus);
        let own = |ticks| Event::Wait { device: 0, ticks };
        assert_eq!(bus.apply_after(4, own(7)), (COUNT_LIMIT, 0));
        assert_eq!(bus.apply_after(11, own(0)), (COUNT_LIMIT, 0));
        assert_eq!(first_totals(&bus), before);
        assert_eq!(bus.apply_after(4, own(6)), (0, 0));
        assert_eq!(bus.devices[0].totals[0].waited(), MAX_TOTAL);
    }

    /// What each output's totals must be: for each accepted wait, "what a lit
    /// question just before would have answered", and the rest of the wait.
    #[derive(Default)]
    struct History([[Totals; MAX_OUTPUTS]; MAX_DEVICES]);

    impl History {
        fn add(&mut self, before: &mut Bus, device: u64, ticks: u64) {
            let position = device as usize;
            for output in 0..before.devices[position].chip.outputs() {
                let (code, lit) = before.apply(Event::Lit {
                    device,
                    output,
                    ticks,
                });
                assert_eq!(code, 0);
                let totals = &mut self.0[position][output as usize];
                totals.lit += lit;
                totals.unlit += ticks - lit;
            }
        }
    }

    /// "The lit total must equal the sum over the history, wait by wait"; and
    /// every output of a device has the same time waited.
    #[test]
    fn totals_are_the_sums_over_the_history() {
        for seed in 1..60 {
            let mut bus = Bus::new();
            let mut history = History::default();
            let log = generate::log(seed, 1000, damage_share(seed));
            for line in text::lines(&log) {
                let mut before = bus.clone();
                let (code, _) = text::answer(&mut bus, line);
                if let (0, Some(Event::Wait { device, ticks })) = (code, text::parse(line)) {
                    history.add(&mut before, device, ticks);
                }
            }
            for (device, totals) in bus.devices.iter().zip(history.0) {
                assert_eq!(device.totals, totals, "seed {seed}");
                let outputs = &totals[..device.chip.outputs() as usize];
                let alike = |pair: &[Totals]| pair[0].waited() == pair[1].waited();
                assert!(outputs.windows(2).all(alike), "seed {seed}");
            }
        }
    }

    #[test]
    fn the_smallest_number_is_given() {
        let mut bus = Bus::new();
        let add = |chip, address| Event::Add { chip, address };
        assert_eq!(bus.apply(Event::Put { byte: 256 }), (OUT_OF_TURN, 0));
        assert_eq!(bus.apply(add(9531, 1)), (0, 0));
        assert_eq!(bus.apply(add(9634, 112)), (BAD_ADDRESS, 0));
        assert_eq!(bus.apply(add(1, 112)), (UNKNOWN_CHIP, 0));
        bus.apply(Event::Start);
        assert_eq!(bus.apply(add(9634, 200)), (BAD_ADDRESS, 0));
        assert_eq!(bus.apply(add(9634, 2)), (OUT_OF_TURN, 0));
        assert_eq!(
            bus.apply(Event::Oe {
                device: 0,
                level: 2
            }),
            (OUT_OF_RANGE, 0)
        );
        assert_eq!(
            bus.apply(Event::Lit {
                device: 0,
                output: 99,
                ticks: MAX_COUNT + 1
            }),
            (COUNT_LIMIT, 0)
        );
    }
}
