//! The tests of document 01 in the order of the twelve steps, with those that document 02 puts among them; one test gives
//! one answer number.

#[derive(Clone, Copy, PartialEq, Eq, PartialOrd, Ord, Debug)]
pub enum Table {
    T640,
    T641,
    T642,
    T643,
    T649,
    T730,
    T70,
}

pub const TABLES: usize = 7;

impl Table {
    /// The order in which 121 and 122 are tested.
    pub const ALL: [Table; TABLES] =
        [Table::T640, Table::T641, Table::T642, Table::T643, Table::T649, Table::T730, Table::T70];

    pub fn number(self) -> u32 {
        [640, 641, 642, 643, 649, 730, 70][self as usize]
    }
}

/// How a number is out of range: too low, too high, or at odds with another number.
#[derive(Clone, Copy, PartialEq, Eq, PartialOrd, Ord, Debug)]
pub enum Side {
    Low,
    High,
    Odds,
}

#[derive(Clone, Copy, PartialEq, Eq, PartialOrd, Ord, Debug)]
pub enum Shape {
    NotWhole,
    TooLong,
}

/// Which of the two amounts a test of step 2 speaks of.
#[derive(Clone, Copy, PartialEq, Eq, PartialOrd, Ord, Debug)]
pub enum Amount {
    Base,
    Entered,
    Both,
}

/// Which of the entry's codes a test of P5 speaks of.
#[derive(Clone, Copy, PartialEq, Eq, PartialOrd, Ord, Debug)]
pub enum Code {
    Prk,
    Gpk,
    Both,
}

/// The derived order is demand 3's order.
#[derive(Clone, Copy, PartialEq, Eq, PartialOrd, Ord, Debug)]
pub enum Test {
    Entry(u8, Side),
    Shape(Table, Shape),
    Range(Table, u8, Side),
    FillingSeveral,
    FillingDiffers(Code),
    BaseUnitAbsent,
    BaseUnitSeveral,
    EnteredUnitAbsent,
    EnteredUnitSeveral,
    AmountZero(Amount),
    AmountAbove(Amount),
    NoGpk,
    GpkAbsent,
    GpkSeveral,
    AgeMissing,
    SexMissing,
    SexDiffers,
    HpkMissing,
    HpkSeveral,
    PrkMissing,
    PrkSeveral,
    BaseLevelAbsent,
    BaseLevelSeveral,
    SettingAbsent,
    SettingSeveral,
    CategoryTooLong,
    AgeNoRow,
    QuietWeightMissing,
    QuietSurfaceMissing,
    Suppressed,
    OnlyCountDiffers,
    OnlyUnitDiffers,
    BothDiffer,
    WeightMissing,
    WeightNoRow,
    SurfaceMissing,
    SurfaceNoRow,
    RowsSeveral,
    LimitsAbsent,
    LimitsSeveral,
    Compared,
}

impl Test {
    pub fn answer(self) -> u32 {
        use Test::*;
        match self {
            Compared | Suppressed => 100,
            AgeMissing => 101,
            SexMissing => 102,
            HpkMissing => 103,
            PrkMissing => 104,
            WeightMissing | QuietWeightMissing => 105,
            SurfaceMissing | QuietSurfaceMissing => 106,
            NoGpk => 110,
            GpkAbsent => 111,
            SexDiffers => 112,
            SettingAbsent => 113,
            AgeNoRow => 114,
            OnlyCountDiffers => 115,
            OnlyUnitDiffers => 116,
            BothDiffer => 117,
            WeightNoRow => 118,
            SurfaceNoRow => 119,
            CategoryTooLong => 120,
            Shape(..) => 121,
            Range(..) => 122,
            FillingSeveral | BaseUnitSeveral | EnteredUnitSeveral | GpkSeveral | HpkSeveral | PrkSeveral => 123,
            BaseLevelSeveral | SettingSeveral | RowsSeveral | LimitsSeveral => 123,
            BaseLevelAbsent | LimitsAbsent => 124,
            Entry(..) => 125,
            BaseUnitAbsent | EnteredUnitAbsent => 126,
            AmountZero(_) => 127,
            AmountAbove(_) => 128,
            FillingDiffers(_) => 133,
        }
    }

    /// Filled for 120 to 124 and 126 to 128 only.
    pub fn table(self) -> u32 {
        use Test::*;
        match self {
            Shape(table, _) | Range(table, ..) => table.number(),
            FillingSeveral => 70,
            BaseUnitAbsent | BaseUnitSeveral | EnteredUnitAbsent | EnteredUnitSeveral => 730,
            AmountZero(_) | AmountAbove(_) => 730,
            GpkSeveral => 640,
            HpkSeveral | PrkSeveral | BaseLevelAbsent | BaseLevelSeveral => 641,
            SettingSeveral => 642,
            CategoryTooLong | RowsSeveral => 643,
            LimitsAbsent | LimitsSeveral => 649,
            _ => 0,
        }
    }
}
