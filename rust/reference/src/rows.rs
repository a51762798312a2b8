//! Rows of the table (document 02, Ticket 10).

/// A feature's row: "tag, tag place, value place, value length".
#[derive(Debug, Clone, Copy, PartialEq, Eq, Default)]
pub struct Row {
    pub tag: usize,
    pub tag_place: usize,
    pub value_place: usize,
    pub value_length: usize,
}

impl Row {
    /// "Each row becomes four numbers."
    pub const WIDTH: usize = 4;

    /// The row's numbers, as the table has them.
    pub fn numbers(self) -> [usize; Row::WIDTH] {
        [self.tag, self.tag_place, self.value_place, self.value_length]
    }

    /// The row of these numbers, if they are as many as a row has.
    pub fn of(numbers: &[usize]) -> Option<Row> {
        let &[tag, tag_place, value_place, value_length] = numbers else { return None };
        Some(Row { tag, tag_place, value_place, value_length })
    }

    /// All rows of a table, unless it is "not in fours".
    pub fn all(table: &[usize]) -> Option<Vec<Row>> {
        table.chunks(Row::WIDTH).map(Row::of).collect()
    }

    /// The table of these rows.
    pub fn table(rows: &[Row]) -> Vec<usize> {
        rows.iter().flat_map(|row| row.numbers()).collect()
    }
}
