//! Document 01's fields in their order, under their names, then those of document 02. The only place that knows which
//! field stands where.

/// What a cell of a column may hold.
#[derive(Clone, Copy, PartialEq)]
pub enum Content {
    /// A whole number of 32 bits.
    Number,
    /// A whole number of 64 bits: CDHOEV.
    Wide,
    /// A whole number of 32 bits, or blank.
    NumberOrBlank,
    /// A whole number of 32 bits, or a range of two: count.
    NumberOrRange,
    /// `on`, `off` or blank: months and quiet.
    OnOffOrBlank,
}

pub struct Column {
    pub name: &'static str,
    pub content: Content,
}

impl Column {
    /// Files from before P4 have no column quiet, and those from before P7 no edition: each may be absent, and is then
    /// blank in every row. Behind such a column only others of its kind may stand.
    pub fn may_be_absent(&self) -> bool {
        [QUIET, EDITION].contains(&self.name)
    }
}

pub struct Table {
    pub file: &'static str,
    pub columns: &'static [Column],
}

/// The optional first column of the entries.
pub const NAME: &str = "name";

const fn number(name: &'static str) -> Column {
    Column { name, content: Content::Number }
}

const fn wide(name: &'static str) -> Column {
    Column { name, content: Content::Wide }
}

const fn or_blank(name: &'static str) -> Column {
    Column { name, content: Content::NumberOrBlank }
}

const fn or_range(name: &'static str) -> Column {
    Column { name, content: Content::NumberOrRange }
}

const fn on_off(name: &'static str) -> Column {
    Column { name, content: Content::OnOffOrBlank }
}

/// The tables in the order in which a case has them. The last may be absent, or be records.
pub const TABLES: [Table; 7] = [
    Table { file: "640.csv", columns: &[number(GPKODE), number("GPDGST"), number("GPRISC")] },
    Table {
        file: "641.csv",
        columns: &[number(GPKODE), number(PRKODE), number(HPKODE), number("GPDCOD"), number("GPDBAS")],
    },
    Table {
        file: "642.csv",
        columns: &[
            number("GPDBAS"),
            number("GPDZCO"),
            number("ICPCNR1"),
            number("ICPCTO"),
            number("GPKTWG"),
            number("GPDCAT"),
        ],
    },
    Table {
        file: "643.csv",
        columns: &[
            number("GPDCAT"),
            number("GPDLFM"),
            number("GPDLFX"),
            number("GPDFAA"),
            number("GPDFEE"),
            number("GPDKGM"),
            number("GPDKGX"),
            number("surface low"),
            number("surface high"),
            number("GPDDNR"),
        ],
    },
    Table {
        file: LIMITS,
        columns: &[number(RULE), number(NORM_MINIMUM), number(NORM_MAXIMUM), number(ABSOLUTE_MAXIMUM)],
    },
    Table { file: "730.csv", columns: &[number("SRTCDE"), number("CODE"), wide("CDHOEV"), number("CDEENH")] },
    Table {
        file: LINKS,
        columns: &[
            number(HPKODE),
            number(PRKODE),
            number("HPANPR"),
            number(GPKODE),
            number("PRANGP"),
            number("HPANGP"),
        ],
    },
];

pub const ENTRY: &[Column] = &[
    number(GPK),
    or_blank(PRK),
    or_blank(HPK),
    or_blank("age"),
    or_blank("sex"),
    or_blank("weight"),
    or_blank("surface"),
    number("care group"),
    number("reason"),
    number("ICPCTO"),
    number("route"),
    or_range(COUNT),
    number("time unit"),
    number("lowest"),
    number("highest"),
    number("entered unit"),
    number(BASE_UNIT),
    number("SRTCDE"),
    number("CODE"),
    on_off("months"),
    on_off(QUIET),
    or_blank(EDITION),
];

// The fields that the front itself reads: to show the limits, the counts and what an HPK brings, and to know where a
// signal may be suppressed and which signals there are.
pub const LIMITS: &str = "649.csv";
pub const RULE: &str = "GPDDNR";
pub const NORM_MINIMUM: &str = "norm minimum";
pub const NORM_MAXIMUM: &str = "norm maximum";
pub const ABSOLUTE_MAXIMUM: &str = "absolute maximum";
pub const BASE_UNIT: &str = "base unit";
pub const COUNT: &str = "count";
pub const QUIET: &str = "quiet";
pub const EDITION: &str = "edition";
pub const GPK: &str = "GPK";
pub const PRK: &str = "PRK";
pub const HPK: &str = "HPK";
pub const GPKODE: &str = "GPKODE";
pub const PRKODE: &str = "PRKODE";
pub const HPKODE: &str = "HPKODE";

/// Table 70, which PRK and GPK an HPK has (P5): a CSV file, or the records of Z-Index's file.
pub const LINKS: &str = "070.csv";
pub const LINK_RECORDS: &str = "BST070T";
