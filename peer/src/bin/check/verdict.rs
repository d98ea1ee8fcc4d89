//! What the comparisons found, and the line that says it.

/// What a comparison lacks though nothing differs.
#[derive(Default)]
pub struct Lacks {
    pub never_met: Vec<String>,
    /// Met where the rules leave no place for it.
    pub wrongly_met: Vec<String>,
}

impl Lacks {
    pub fn print(&self) {
        self.never_met.iter().for_each(|name| println!("never met: {name}"));
        self.wrongly_met.iter().for_each(|name| println!("met where it can't be: {name}"));
    }
}

/// A comparison in which nothing differs.
pub struct Same {
    /// What was compared, in words.
    pub compared: String,
    pub count: u64,
    /// From so many on everything has to be met.
    pub enough: u64,
    /// What is counted.
    pub unit: &'static str,
    pub lacks: Lacks,
}

impl Same {
    fn is_fine(&self) -> bool {
        self.lacks.wrongly_met.is_empty() && (self.lacks.never_met.is_empty() || self.count < self.enough)
    }
}

pub enum Found {
    /// A day or a case does.
    Differs(&'static str),
    Same(Same),
}

impl Found {
    pub fn is_fine(&self) -> bool {
        matches!(self, Found::Same(same) if same.is_fine())
    }

    /// Why the check fails, if it does.
    fn failure(&self) -> Option<String> {
        match self {
            Found::Differs(what) => Some(format!("a {what} differs")),
            Found::Same(same) if same.is_fine() => None,
            Found::Same(Same { compared, lacks, .. }) => {
                let (never, wrongly) = (things(lacks.never_met.len()), things(lacks.wrongly_met.len()));
                Some(format!("{compared}: {never} never met, {wrongly} met where it can't be, listed above"))
            }
        }
    }
}

/// The last line: what was compared and whether everything was met, or why the check fails.
pub fn line(found: &[Found]) -> String {
    if let Some(failure) = found.iter().find_map(Found::failure) {
        return format!("peer: FAILED: {failure}");
    }
    let same = || found.iter().filter_map(|found| if let Found::Same(same) = found { Some(same) } else { None });
    let joined = |parts: Vec<String>| parts.join(" and ");
    let compared = joined(same().map(|same| same.compared.clone()).collect());
    let never: usize = same().map(|same| same.lacks.never_met.len()).sum();
    if never == 0 {
        return format!("peer: {compared}, all the same; everything met");
    }
    let few = same().filter(|same| !same.lacks.never_met.is_empty());
    let fewer = joined(few.map(|same| format!("{} {}", same.enough, same.unit)).collect());
    format!("peer: {compared}, all the same; {} never met, listed above, as fewer than {fewer} may", things(never))
}

fn things(count: usize) -> String {
    format!("{count} {}", if count == 1 { "thing" } else { "things" })
}

#[cfg(test)]
mod tests {
    use super::*;

    fn same(count: u64, never: usize, wrongly: usize) -> Found {
        let names = |count: usize| vec!["name".to_string(); count];
        let lacks = Lacks { never_met: names(never), wrongly_met: names(wrongly) };
        Found::Same(Same { compared: format!("{count} days"), count, enough: 100, unit: "days", lacks })
    }

    #[test]
    fn everything_met() {
        assert_eq!(line(&[same(99, 0, 0), same(100, 0, 0)]), "peer: 99 days and 100 days, all the same; everything met");
    }

    #[test]
    fn what_is_never_met_fails_where_there_are_enough() {
        let few = "peer: 99 days, all the same; 1 thing never met, listed above, as fewer than 100 days may";
        assert_eq!((same(99, 1, 0).is_fine(), line(&[same(99, 1, 0)]).as_str()), (true, few));
        let enough = "peer: FAILED: 100 days: 2 things never met, 0 things met where it can't be, listed above";
        assert_eq!((same(100, 2, 0).is_fine(), line(&[same(99, 0, 0), same(100, 2, 0)]).as_str()), (false, enough));
    }

    #[test]
    fn what_is_wrongly_met_fails_always() {
        assert!(!same(1, 0, 1).is_fine());
        assert!(line(&[same(1, 0, 1)]).starts_with("peer: FAILED: "));
    }

    #[test]
    fn a_difference_fails() {
        assert!(!Found::Differs("day").is_fine());
        assert_eq!(line(&[same(100, 0, 0), Found::Differs("case")]), "peer: FAILED: a case differs");
    }
}
