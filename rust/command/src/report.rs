//! A result as named figures, and its three forms. A column is added where its row is made, and then stands in each form.

use crate::form::Form;

/// A figure, or the SOC's name: letters, digits, `_` and `-`, which JSON takes as they are.
#[derive(Clone)]
pub enum Value {
    Figure(u64),
    Name(String),
}

impl From<u32> for Value {
    fn from(figure: u32) -> Self {
        Value::Figure(figure.into())
    }
}

impl From<u64> for Value {
    fn from(figure: u64) -> Self {
        Value::Figure(figure)
    }
}

impl Value {
    fn plain(&self) -> String {
        match self {
            Value::Figure(figure) => figure.to_string(),
            Value::Name(name) => name.clone(),
        }
    }

    fn json(&self) -> String {
        match self {
            Value::Figure(figure) => figure.to_string(),
            Value::Name(name) => format!("\"{name}\""),
        }
    }
}

/// Values under their names, in the order in which they are printed.
pub type Row = Vec<(&'static str, Value)>;

/// Rows with the same columns, under the name that they have in JSON.
pub struct Group {
    pub name: &'static str,
    pub rows: Vec<Row>,
}

pub struct Report {
    /// What was asked, told in JSON alone.
    pub asked: Row,
    pub head: Row,
    pub groups: Vec<Group>,
}

impl Report {
    pub fn printed(&self, form: Form) -> String {
        match form {
            Form::Lines => self.lines(),
            Form::Table => self.table(),
            Form::Json => self.json(),
        }
    }

    fn lines(&self) -> String {
        let rows = self.groups.iter().flat_map(|group| &group.rows);
        std::iter::once(&self.head).chain(rows).map(line).collect()
    }

    fn table(&self) -> String {
        let groups = self.groups.iter().filter(|group| !group.rows.is_empty());
        line(&self.head) + &groups.map(|group| format!("\n{}", columns(&group.rows))).collect::<String>()
    }

    fn json(&self) -> String {
        let mut members = [&self.asked[..], &self.head].concat().iter().map(member).collect::<Vec<_>>();
        members.extend(self.groups.iter().map(array));
        format!("{{{}}}\n", members.join(","))
    }
}

fn line(row: &Row) -> String {
    let words: Vec<String> = row.iter().map(|(name, value)| format!("{name} {}", value.plain())).collect();
    words.join(" ") + "\n"
}

/// The names, then the rows, each column as wide as its widest entry.
fn columns(rows: &[Row]) -> String {
    let names = rows[0].iter().map(|(name, _)| name.to_string()).collect::<Vec<_>>();
    let entries = rows.iter().map(|row| row.iter().map(|(_, value)| value.plain()).collect());
    let lines: Vec<Vec<String>> = std::iter::once(names).chain(entries).collect();
    let width = |column: usize| lines.iter().map(|line| line[column].len()).max().unwrap_or(0);
    let aligned = |line: &Vec<String>| {
        let entries: Vec<String> = line.iter().enumerate().map(|(column, entry)| format!("{entry:>0$}", width(column))).collect();
        entries.join("  ") + "\n"
    };
    lines.iter().map(aligned).collect()
}

fn member((name, value): &(&'static str, Value)) -> String {
    format!("\"{name}\":{}", value.json())
}

fn array(group: &Group) -> String {
    let object = |row: &Row| format!("{{{}}}", row.iter().map(member).collect::<Vec<_>>().join(","));
    format!("\"{}\":[{}]", group.name, group.rows.iter().map(object).collect::<Vec<_>>().join(","))
}

#[cfg(test)]
mod tests {
    use super::*;

    fn report() -> Report {
        let bus = |bus: u32, busy: u64| vec![("bus", bus.into()), ("busy", busy.into())];
        Report {
            asked: vec![("width", 4u32.into())],
            head: vec![("soc", Value::Name("7".to_string())), ("time", 65u64.into())],
            groups: vec![Group { name: "buses", rows: vec![bus(1, 12345), bus(2, 9)] }, Group { name: "none", rows: vec![] }],
        }
    }

    #[test]
    fn lines_have_names_and_values_in_turn() {
        assert_eq!(report().printed(Form::Lines), "soc 7 time 65\nbus 1 busy 12345\nbus 2 busy 9\n");
    }

    #[test]
    fn columns_stand_in_line() {
        assert_eq!(report().printed(Form::Table), "soc 7 time 65\n\nbus   busy\n  1  12345\n  2      9\n");
    }

    #[test]
    fn json_is_one_object() {
        let json = "{\"width\":4,\"soc\":\"7\",\"time\":65,\"buses\":[{\"bus\":1,\"busy\":12345},{\"bus\":2,\"busy\":9}],\"none\":[]}\n";
        assert_eq!(report().printed(Form::Json), json);
    }
}
