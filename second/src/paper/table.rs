//! A table as a page of Markdown has it.

pub struct Table {
    columns: usize,
    text: String,
}

impl Table {
    pub fn new<S: AsRef<str>>(heads: &[S]) -> Table {
        let heads: Vec<&str> = heads.iter().map(AsRef::as_ref).collect();
        let text = format!("| {} |\n|{}\n", heads.join(" | "), "---|".repeat(heads.len()));
        Table { columns: heads.len(), text }
    }

    /// An empty form: each row has the first cells given, and the rest is left to the pencil.
    pub fn form<S: AsRef<str>>(heads: &[S], rows: impl IntoIterator<Item = Vec<String>>) -> Table {
        let mut table = Table::new(heads);
        for mut row in rows {
            row.resize(table.columns, String::new());
            table.row(row);
        }
        table
    }

    pub fn row(&mut self, cells: impl IntoIterator<Item = String>) {
        let cells: Vec<String> = cells.into_iter().collect();
        assert_eq!(cells.len(), self.columns, "a row has a cell for each head");
        self.text += &format!("| {} |\n", cells.join(" | "));
    }

    pub fn text(self) -> String {
        self.text
    }
}
