//! The tables that a text spells, the room lent for them, and the refusals.

/// The most places of the code table: seven systems, 64 codes each.
pub const CODE_PLACES: usize = 448;

/// Why a text is not read, and at which line.
#[derive(Clone, Copy, Debug, PartialEq, Eq)]
pub struct Refusal {
    pub number: u32,
    pub line: u64,
}

/// What the header says, apart from the codes and the carried lines.
#[derive(Clone, Copy, Debug, Default, PartialEq, Eq)]
pub struct Head {
    pub letter: u8,
    /// How many codes each of G R E J C I S has.
    pub lengths: [u64; 7],
    pub first_time: u64,
    /// Place in GPS GLO GAL QZS BDT IRN.
    pub time_system: u64,
    pub interval_state: u8,
    /// Thousandths of a second.
    pub interval: u64,
    /// How many of the carried lines stand in the header.
    pub carried_lines: u64,
}

/// How many entries each table has.
#[derive(Clone, Copy, Debug, Default, PartialEq, Eq)]
pub struct Counts {
    pub epochs: u64,
    pub rows: u64,
    pub slots: u64,
    pub carried: u64,
}

/// The length of each of the 13 lent buffers.
#[derive(Clone, Copy, Debug, PartialEq, Eq)]
pub struct Room {
    pub codes: usize,
    pub times: usize,
    pub time_states: usize,
    pub flags: usize,
    pub counts: usize,
    pub clocks: usize,
    pub clock_states: usize,
    pub satellites: usize,
    pub numbers: usize,
    pub states: usize,
    pub losses: usize,
    pub strengths: usize,
    pub carried: usize,
}

impl Room {
    /// The same length for every buffer of a table.
    pub fn new(codes: usize, epochs: usize, rows: usize, slots: usize, carried: usize) -> Room {
        Room {
            codes,
            times: epochs,
            time_states: epochs,
            flags: epochs,
            counts: epochs,
            clocks: epochs,
            clock_states: epochs,
            satellites: rows,
            numbers: slots,
            states: slots,
            losses: slots,
            strengths: slots,
            carried,
        }
    }

    /// More than any text within the limit can fill.
    pub fn ample() -> Room {
        let plenty = 1 << 40;
        Room::new(CODE_PLACES, plenty, plenty, plenty, plenty)
    }

    /// The room for epochs: the shortest of the six buffers.
    pub fn epochs(&self) -> usize {
        let times = self.times.min(self.time_states);
        let marks = self.flags.min(self.counts);
        times.min(marks).min(self.clocks).min(self.clock_states)
    }

    /// The room for slots: the shortest of the four buffers.
    pub fn slots(&self) -> usize {
        let values = self.numbers.min(self.states);
        values.min(self.losses).min(self.strengths)
    }
}

/// Everything that a text spells.
#[derive(Clone, Debug, Default, PartialEq, Eq)]
pub struct Tables {
    pub head: Head,
    pub counts: Counts,
    /// 448 places; an unused one is `None`.
    pub codes: Vec<Option<u32>>,
    pub times: Vec<u64>,
    pub time_states: Vec<u8>,
    pub flags: Vec<u8>,
    pub line_counts: Vec<u16>,
    pub clocks: Vec<i64>,
    pub clock_states: Vec<u8>,
    pub satellites: Vec<u16>,
    pub numbers: Vec<i64>,
    pub states: Vec<u8>,
    pub losses: Vec<u8>,
    pub strengths: Vec<u8>,
    pub carried: Vec<u8>,
}

impl Tables {
    /// The code table as it is lent; unused places hold 0.
    pub fn lent_codes(&self) -> Vec<u32> {
        self.codes.iter().map(|code| code.unwrap_or(0)).collect()
    }

    /// The tables as they are lent to the writer.
    pub fn lent<'a>(&'a self, codes: &'a [u32]) -> TablesRef<'a> {
        TablesRef {
            head: self.head,
            counts: self.counts,
            codes,
            times: &self.times,
            time_states: &self.time_states,
            flags: &self.flags,
            line_counts: &self.line_counts,
            clocks: &self.clocks,
            clock_states: &self.clock_states,
            satellites: &self.satellites,
            numbers: &self.numbers,
            states: &self.states,
            losses: &self.losses,
            strengths: &self.strengths,
            carried: &self.carried,
        }
    }
}

/// Tables lent for reading only: to the writer, and for slot questions.
#[derive(Clone, Copy, Debug)]
pub struct TablesRef<'a> {
    pub head: Head,
    pub counts: Counts,
    pub codes: &'a [u32],
    pub times: &'a [u64],
    pub time_states: &'a [u8],
    pub flags: &'a [u8],
    pub line_counts: &'a [u16],
    pub clocks: &'a [i64],
    pub clock_states: &'a [u8],
    pub satellites: &'a [u16],
    pub numbers: &'a [i64],
    pub states: &'a [u8],
    pub losses: &'a [u8],
    pub strengths: &'a [u8],
    pub carried: &'a [u8],
}

/// Buffers lent to the reader.
pub struct TablesMut<'a> {
    pub codes: &'a mut [u32],
    pub times: &'a mut [u64],
    pub time_states: &'a mut [u8],
    pub flags: &'a mut [u8],
    pub line_counts: &'a mut [u16],
    pub clocks: &'a mut [i64],
    pub clock_states: &'a mut [u8],
    pub satellites: &'a mut [u16],
    pub numbers: &'a mut [i64],
    pub states: &'a mut [u8],
    pub losses: &'a mut [u8],
    pub strengths: &'a mut [u8],
    pub carried: &'a mut [u8],
}

impl Tables {
    /// Lends the tables, with places for the codes beside them.
    pub fn lend<'a>(&'a mut self, codes: &'a mut [u32]) -> TablesMut<'a> {
        TablesMut {
            codes,
            times: &mut self.times,
            time_states: &mut self.time_states,
            flags: &mut self.flags,
            line_counts: &mut self.line_counts,
            clocks: &mut self.clocks,
            clock_states: &mut self.clock_states,
            satellites: &mut self.satellites,
            numbers: &mut self.numbers,
            states: &mut self.states,
            losses: &mut self.losses,
            strengths: &mut self.strengths,
            carried: &mut self.carried,
        }
    }
}

impl TablesMut<'_> {
    /// The lengths of the lent buffers.
    pub fn room(&self) -> Room {
        Room {
            codes: self.codes.len(),
            times: self.times.len(),
            time_states: self.time_states.len(),
            flags: self.flags.len(),
            counts: self.line_counts.len(),
            clocks: self.clocks.len(),
            clock_states: self.clock_states.len(),
            satellites: self.satellites.len(),
            numbers: self.numbers.len(),
            states: self.states.len(),
            losses: self.losses.len(),
            strengths: self.strengths.len(),
            carried: self.carried.len(),
        }
    }
}
