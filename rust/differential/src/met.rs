//! Counting.

/// How often each thing was met, of those that have to be, in groups.
#[derive(Default)]
pub struct Met(Vec<(String, Vec<(String, u64)>)>);

impl Met {
    /// A group, and the things in it that have to be met.
    pub fn expect(&mut self, group: &str, things: impl IntoIterator<Item = impl ToString>) {
        self.0.push((group.into(), things.into_iter().map(|thing| (thing.to_string(), 0)).collect()));
    }

    /// Meets a thing of a group. One that was not expected is a failure.
    pub fn meet(&mut self, group: &str, thing: impl ToString) {
        let name = thing.to_string();
        let things = self.0.iter_mut().find(|(known, _)| known == group).map(|(_, things)| things);
        let thing = things.and_then(|things| things.iter_mut().find(|(known, _)| *known == name));
        thing.unwrap_or_else(|| panic!("{group} {name} was met and cannot be")).1 += 1;
    }

    /// Prints how often each thing was met; says whether each was.
    pub fn report(&self) -> bool {
        let width = self.0.iter().map(|(group, _)| group.len()).max().unwrap_or(0);
        for (group, things) in &self.0 {
            let counts: Vec<_> = things.iter().map(|(thing, count)| format!("{thing}: {count}")).collect();
            println!("{group:>width$}  {}", counts.join("  "));
        }
        let mut complete = true;
        for (group, things) in &self.0 {
            for (thing, _) in things.iter().filter(|(_, count)| *count == 0) {
                println!("{group}: {thing} was never met");
                complete = false;
            }
        }
        complete
    }
}
