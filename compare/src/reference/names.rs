//! P3's names: the lists of docs/find.md, under "Names and numbers". They are read out of the document
//! when the program runs, so that what the proved programs are held to is what a reader is told.

/// The document, from the folder that the program is run in.
pub const DOCUMENT: &str = "docs/find.md";

const HEADING: &str = "Names and numbers\n";

/// The lists by what stands above them in the tables, their least numbers and how many names they have.
pub const LISTS: [(&str, u32, usize); 7] = [
    ("weekday", 0, 7),
    ("tithi", 0, 30),
    ("nakshatra", 0, 27),
    ("yoga", 0, 27),
    ("karana", 1, 11),
    ("sign", 0, 12),
    ("month", 0, 12),
];

/// A number, its plain name, and its other spelling: the transliteration, or a weekday's first letters.
#[derive(Clone, Debug)]
pub struct Name {
    pub number: u32,
    pub spellings: [String; 2],
}

/// A half of the month: the least number of its tithis, and its names.
pub type Half = Name;

#[derive(Clone)]
pub struct Names {
    /// In the order of `LISTS`.
    pub lists: [Vec<Name>; 7],
    /// The degree that each sign begins at.
    pub begins: Vec<u32>,
    /// The bright half and the dark one.
    pub halves: Vec<Half>,
}

/// The cells of a table's row, without the marks of code.
fn cells(row: &str) -> Option<Vec<&str>> {
    let row = row.strip_prefix('|')?.strip_suffix('|')?;
    Some(row.split('|').map(|cell| cell.trim_matches('`')).collect())
}

/// The tables of a text, each by its rows; the first has what stands above the columns.
fn tables(text: &str) -> Vec<Vec<Vec<&str>>> {
    let mut tables = vec![Vec::new()];
    for line in text.lines() {
        match cells(line) {
            Some(row) => tables.last_mut().expect("there is one").push(row),
            None => tables.push(Vec::new()),
        }
    }
    let not_empty = tables.into_iter().filter(|rows| rows.len() > 2);
    not_empty.collect()
}

/// What stands above a column of names, as a place in `LISTS`. The tithis' table has nothing but names.
fn list_of(above: &str) -> Option<usize> {
    let above = if above == "name" { "tithi" } else { above };
    LISTS.iter().position(|(list, _, _)| *list == above)
}

impl Names {
    /// The lists of a document's text. A column belongs to the nearest column of numbers before it, and a
    /// name's other spelling stands behind it.
    pub fn in_text(document: &str) -> Names {
        let mut sections = document.split("\n## ");
        let section = sections.find(|section| section.starts_with(HEADING));
        let section = section.unwrap_or_else(|| panic!("{DOCUMENT} has no section {HEADING:?}"));
        let mut names = Names {
            lists: Default::default(),
            begins: Vec::new(),
            halves: Vec::new(),
        };
        for rows in tables(section) {
            let (above, rows) = (&rows[0], &rows[2..]);
            let mut numbers = 0;
            for (at, column) in above.iter().enumerate() {
                let list = list_of(column);
                if *column == "number" {
                    numbers = at;
                }
                for row in rows.iter().filter(|row| !row[at].is_empty()) {
                    if let Some(list) = list {
                        let number = row[numbers].parse().expect("a name has a number");
                        let spellings = [row[at], row[at + 1]].map(String::from);
                        names.lists[list].push(Name { number, spellings });
                    } else if *column == "begins at" {
                        let degree = row[at].trim_end_matches('°').parse();
                        names
                            .begins
                            .push(degree.expect("a sign begins at a degree"));
                    }
                }
            }
        }
        names.halves = halves(names.list("tithi"));
        names
    }

    pub fn in_document() -> Names {
        let text = std::fs::read_to_string(DOCUMENT);
        Names::in_text(&text.unwrap_or_else(|error| panic!("{DOCUMENT} can't be read: {error}")))
    }

    pub fn list(&self, name: &str) -> &[Name] {
        &self.lists[list_of(name).expect("there is such a list")]
    }

    /// The name of the least number, and of the largest.
    pub fn ends(&self, list: &str) -> [&Name; 2] {
        let ends = || self.list(list).iter();
        let ends = [
            ends().min_by_key(|name| name.number),
            ends().max_by_key(|name| name.number),
        ];
        ends.map(|name| name.expect("a list has names"))
    }

    /// How a number is printed: "in one plain spelling".
    pub fn plain(&self, list: &str, number: u32) -> &str {
        let name = self.list(list).iter().find(|name| name.number == number);
        &name.expect("each number has a name").spellings[0]
    }
}

/// A half of the month is what stands before the hyphen of its tithis' names.
fn halves(tithis: &[Name]) -> Vec<Half> {
    let mut halves: Vec<Half> = Vec::new();
    for Name { number, spellings } in tithis {
        let [plain, other] = spellings.each_ref().map(|name| name.split_once('-'));
        let (Some((plain, _)), Some((other, _))) = (plain, other) else {
            continue;
        };
        if halves.iter().all(|half| half.spellings[0] != plain) {
            let (number, spellings) = (*number, [plain, other].map(String::from));
            halves.push(Half { number, spellings });
        }
    }
    halves
}

/// "In any letter case": each letter is the name's or its capital, and there are as many.
pub fn spells(word: &[u8], name: &str) -> bool {
    let Ok(word) = std::str::from_utf8(word) else {
        return false;
    };
    let alike = |(own, names): (char, char)| own == names || names.to_uppercase().eq([own]);
    word.chars().count() == name.chars().count() && word.chars().zip(name.chars()).all(alike)
}

/// The rule of docs/find.md that makes the plain spelling of a transliteration.
pub fn without_marks(name: &str) -> String {
    let mut plain = String::new();
    for letter in name.chars() {
        match letter {
            'ā' => plain.push('a'),
            'ī' => plain.push('i'),
            'ū' => plain.push('u'),
            'ṭ' => plain.push('t'),
            'ḍ' => plain.push('d'),
            'ṇ' | 'ñ' => plain.push('n'),
            'ṃ' => plain.push('m'),
            'ś' | 'ṣ' => plain.push_str("sh"),
            'ṛ' => plain.push_str("ri"),
            'c' => plain.push_str("ch"),
            other => plain.push(other),
        }
    }
    plain
}
