//! Logs of bus events, and what the library answers to them.
#![allow(dead_code)] // each test program uses a part

/// A log that grows call by call. A copy of it can go on in another way.
#[derive(Clone, Default)]
pub struct Log {
    lines: Vec<String>,
}

impl Log {
    /// A bus with one fresh chip, at position 0.
    pub fn with(chip: u64, address: u8) -> Self {
        Log::default().add(chip, address)
    }

    fn line(mut self, line: String) -> Self {
        self.lines.push(line);
        self
    }

    pub fn add(self, chip: u64, address: u8) -> Self {
        self.line(format!("ev=add chip={chip} addr={address}"))
    }

    pub fn start(self) -> Self {
        self.line("ev=start".into())
    }

    pub fn put(self, byte: u8) -> Self {
        self.line(format!("ev=put byte={byte}"))
    }

    pub fn get(self, ack: u8) -> Self {
        self.line(format!("ev=get ack={ack}"))
    }

    pub fn stop(self) -> Self {
        self.line("ev=stop".into())
    }

    pub fn wait(self, dev: u64, ticks: u64) -> Self {
        self.line(format!("ev=wait dev={dev} ticks={ticks}"))
    }

    pub fn oe(self, dev: u64, level: u8) -> Self {
        self.line(format!("ev=oe dev={dev} level={level}"))
    }

    pub fn ext(self, dev: u64, level: u8) -> Self {
        self.line(format!("ev=ext dev={dev} level={level}"))
    }

    pub fn lit(self, dev: u64, out: u64, ticks: u64) -> Self {
        self.line(format!("ev=lit dev={dev} out={out} ticks={ticks}"))
    }

    pub fn pin(self, dev: u64, out: u64) -> Self {
        self.line(format!("ev=pin dev={dev} out={out}"))
    }

    pub fn puts(self, bytes: &[u8]) -> Self {
        bytes.iter().fold(self, |log, &byte| log.put(byte))
    }

    /// All gets have ack 1 but the last.
    pub fn gets(self, n: usize) -> Self {
        (1..=n).fold(self, |log, i| log.get(u8::from(i < n)))
    }

    /// A write message to a 7-bit address.
    pub fn write(self, address: u8, bytes: &[u8]) -> Self {
        self.start().put(2 * address).puts(bytes).stop()
    }

    /// A read message from a 7-bit address: the control byte, a repeated START, n gets.
    pub fn read(self, address: u8, control: u8, n: usize) -> Self {
        let selected = self.start().put(2 * address).put(control).start();
        selected.put(2 * address + 1).gets(n).stop()
    }

    /// The values of the last n answers to an event, in the order of the log. Every line of the
    /// log must have been accepted.
    pub fn last(&self, event: &str, n: usize) -> Vec<u64> {
        let answers = String::from_utf8(lamptwin::run(self.lines.join("\n").as_bytes())).unwrap();
        assert_eq!(answers.lines().count(), self.lines.len());
        let mut values = Vec::new();
        for (i, (line, answer)) in self.lines.iter().zip(answers.lines()).enumerate() {
            let value = answer.strip_prefix(&format!("n={} code=0 value=", i + 1));
            let value = value.unwrap_or_else(|| panic!("{line} got {answer}"));
            if line.starts_with(&format!("ev={event}")) {
                values.push(value.parse().unwrap());
            }
        }
        let earlier = values.len().checked_sub(n);
        values.split_off(earlier.expect("the log has n such events"))
    }

    /// The value of the last answer to an event.
    pub fn value(&self, event: &str) -> u64 {
        self.last(event, 1)[0]
    }

    /// The bytes of the last n gets.
    pub fn bytes(&self, n: usize) -> Vec<u8> {
        let values = self.last("get", n).into_iter();
        values.map(|value| value.try_into().unwrap()).collect()
    }
}
