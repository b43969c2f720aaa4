//! A grid of cells with names around it, as lines and areas: these are printed also where backgrounds are not.
use super::words::in_short;

/// A row: the inputs of a part, and whether it has a tick or a cross at its end, if one of them.
pub struct Row {
    pub inputs: u64,
    pub good: Option<bool>,
}

/// Where things stand; lengths in CSS pixels. With 64 columns, or 64 rows, it has its place on a sheet of A4.
pub struct Grid {
    /// The inputs of the columns, and those that are marked.
    columns: Vec<usize>,
    marked: u64,
    rows: usize,
    /// Of a cell.
    wide: usize,
    high: usize,
    /// The room for names on the left and above, the size of their letters, and whether names above are turned.
    left: usize,
    top: usize,
    letters: usize,
    turned: bool,
}

impl Grid {
    pub fn of(columns: Vec<usize>, rows: usize, marked: u64) -> Grid {
        let (wide, left, top, letters) = match columns.len() {
            0..=20 => (28, 54, 20, 12),
            21..=36 => (17, 48, 28, 11),
            _ => (12, 22, 28, 10),
        };
        let high = match rows {
            0..=20 => wide.min(22),
            21..=40 => wide.min(16),
            _ => 12,
        };
        let turned = columns.len() > 20;
        Grid { columns, marked, rows, wide, high, left, top, letters, turned }
    }

    /// Where the cells end on the right, and below.
    fn right(&self) -> usize {
        self.left + self.columns.len() * self.wide
    }

    fn bottom(&self) -> usize {
        self.top + self.rows * self.high
    }

    /// Names are repeated on the right, and below, where the first ones are far away.
    fn names_right(&self) -> bool {
        self.columns.len() > 24
    }

    fn names_below(&self) -> bool {
        self.rows > 24
    }

    /// The whole picture.
    pub fn drawn(&self, caption: &str, rows: &[Row]) -> String {
        let width = self.right() + if self.names_right() { 40 } else { 22 };
        let height = self.bottom() + if self.names_below() { self.top } else { 1 };
        let told: Vec<String> = rows.iter().enumerate().map(|(k, row)| told(k, row)).collect();
        let body: String = rows.iter().enumerate().map(|(k, row)| self.row(k, row)).collect();
        format!(
            "<svg class=\"grid\" role=\"img\" width=\"{width}\" height=\"{height}\" viewBox=\"0 0 {width} {height}\">\n\
             <title>{caption}: inputs by part</title>\n<desc>{}</desc>\n{}{}{body}</svg>",
            told.join(" "),
            self.lines(),
            self.column_names()
        )
    }

    /// Thin lines around cells, and a stronger one at every eighth.
    fn lines(&self) -> String {
        let strong = |i: usize, count: usize| i == 0 || i == count || (count > 12 && i % 8 == 0);
        let mut paths = [String::new(), String::new()];
        for i in 0..=self.columns.len() {
            let line = format!("M{} {}V{}", self.left + i * self.wide, self.top, self.bottom());
            paths[usize::from(strong(i, self.columns.len()))] += &line;
        }
        for i in 0..=self.rows {
            let line = format!("M{} {}H{}", self.left, self.top + i * self.high, self.right());
            paths[usize::from(strong(i, self.rows))] += &line;
        }
        format!("<path class=\"thin\" d=\"{}\"/>\n<path class=\"strong\" d=\"{}\"/>\n", paths[0], paths[1])
    }

    fn column_names(&self) -> String {
        let mut names = String::new();
        for i in 0..self.columns.len() {
            names += &self.column_name(i, false);
            if self.names_below() {
                names += &self.column_name(i, true);
            }
        }
        format!("<g font-size=\"{}\">\n{names}</g>\n", self.letters)
    }

    /// A name above or below its column; a turned one reads upwards.
    fn column_name(&self, i: usize, below: bool) -> String {
        let input = self.columns[i];
        let class = if self.marked >> input & 1 == 1 { " class=\"twice\"" } else { "" };
        let x = self.left + i * self.wide + self.wide / 2;
        let (y, anchor) = match (self.turned, below) {
            (false, false) => (self.top - 6, "middle"),
            (false, true) => (self.bottom() + 14, "middle"),
            (true, false) => (self.top - 4, "start"),
            (true, true) => (self.bottom() + 4, "end"),
        };
        let place = if self.turned {
            format!("transform=\"translate({} {y}) rotate(-90)\"", x + self.letters / 3)
        } else {
            format!("x=\"{x}\" y=\"{y}\"")
        };
        format!("<text{class} {place} text-anchor=\"{anchor}\">x{input}</text>\n")
    }

    fn row(&self, k: usize, row: &Row) -> String {
        let y = self.top + k * self.high;
        let middle = y + self.high / 2;
        let letters = self.letters.min(self.high - 1);
        let name = if self.left > 24 { format!("part {}", k + 1) } else { (k + 1).to_string() };
        let text = format!("font-size=\"{letters}\" y=\"{}\"", middle + letters / 3);
        let mut drawn = format!("<text {text} x=\"{}\" text-anchor=\"end\">{name}</text>\n", self.left - 6);
        let mut end = self.right();
        if self.names_right() {
            drawn += &format!("<text {text} x=\"{}\">{}</text>\n", end + 5, k + 1);
            end += 16;
        }
        drawn += &self.cells(y, row.inputs);
        drawn + &row.good.map_or(String::new(), |good| mark(good, end + 7, middle))
    }

    /// The cells of a row: full ones, and crossed ones in the columns that are marked.
    fn cells(&self, y: usize, inputs: u64) -> String {
        let (wide, high) = (self.wide - 4, self.high - 4);
        let (mut full, mut crossed) = (String::new(), String::new());
        for (i, input) in self.columns.iter().enumerate().filter(|(_, input)| inputs >> **input & 1 == 1) {
            let cell = format!("M{} {}h{wide}v{high}h-{wide}z", self.left + i * self.wide + 2, y + 2);
            if self.marked >> input & 1 == 1 {
                crossed += &format!("{cell}l{wide} {high}m0-{high}l-{wide} {high}");
            } else {
                full += &cell;
            }
        }
        path("held", &full) + &path("shared", &crossed)
    }
}

fn path(class: &str, drawn: &str) -> String {
    match drawn {
        "" => String::new(),
        _ => format!("<path class=\"{class}\" d=\"{drawn}\"/>\n"),
    }
}

/// A tick or a cross, eight wide, from here to the right.
fn mark(good: bool, x: usize, middle: usize) -> String {
    if good {
        path("tick", &format!("M{x} {middle}l3 3 5-7"))
    } else {
        path("cross", &format!("M{x} {}l8 8m0-8l-8 8", middle - 4))
    }
}

/// A row in words.
fn told(k: usize, row: &Row) -> String {
    let inputs = if row.inputs == 0 { "no input".to_string() } else { in_short(row.inputs) };
    let mark = match row.good {
        Some(true) => " (tick)",
        Some(false) => " (cross)",
        None => "",
    };
    format!("Part {}: {inputs}{mark}.", k + 1)
}
