//! Colour modes, addresses and the colour map.

/// G, R and B, in the order of the records.
pub type Grb = [u8; 3];

const WHITE: Grb = [255; 3];

/// The colour mode, the colours and the map.
#[derive(Clone, Debug, PartialEq, Eq)]
pub struct Colours {
    mode: u8,
    direct: Grb,
    foreground: u8,
    background: u8,
    map: [Grb; 16],
    /// Bytes 2 to 5 of a record, in their places of its first word.
    paint: u64,
}

impl Colours {
    pub fn new() -> Self {
        let mut colours = Colours {
            mode: 0,
            direct: WHITE,
            foreground: 0,
            background: 0,
            map: [[0; 3]; 16],
            paint: 0,
        };
        colours.mix();
        colours
    }

    /// The mode and colour bytes of a record.
    #[inline]
    pub fn paint(&self) -> u64 {
        self.paint
    }

    /// The map's entry at an address, if there is one.
    pub fn entry(&self, address: u8) -> Option<Grb> {
        self.map.get(usize::from(address)).copied()
    }

    /// NSR: mode 0 and white; addresses and map stay.
    pub fn reset(&mut self) {
        self.direct = WHITE;
        self.select_direct();
    }

    pub fn select_direct(&mut self) {
        self.mode = 0;
        self.mix();
    }

    pub fn select_foreground(&mut self, address: u8) {
        self.foreground = address & 15;
        self.mode = 1;
        self.mix();
    }

    pub fn select_background(&mut self, address: u8) {
        self.background = address & 15;
        self.mode = 2;
        self.mix();
    }

    /// SET COLOUR: the colour itself in mode 0, else the map at the
    /// foreground. Answers whether the map was written.
    pub fn set(&mut self, colour: Grb) -> bool {
        if self.mode == 0 {
            self.direct = colour;
            self.mix();
            return false;
        }
        self.map[usize::from(self.foreground & 15)] = colour;
        true
    }

    fn mix(&mut self) {
        let [a, b, c] = match self.mode {
            0 => self.direct,
            1 => [self.foreground, 0, 0],
            _ => [self.foreground, self.background, 0],
        };
        self.paint = u64::from_le_bytes([0, 0, self.mode, a, b, c, 0, 0]);
    }
}
