//! A shown interpretation (01: stock): the elements that the links of one lead to, and what is to be said of them.

use hermitcasket::Interpretation;

use crate::words::Legend;

/// An element (01: thing) with its names, and its links: the roles to each other one.
pub struct Element {
    pub number: u16,
    pub names: Vec<String>,
    pub links: Vec<(Vec<String>, u16)>,
}

/// The elements by how many links lead to them from the first.
pub fn columns(shown: &Interpretation, first: u16, legend: &Legend) -> Vec<Vec<Element>> {
    let mut seen = vec![first];
    let mut columns = Vec::new();
    let mut step = vec![first];
    while !step.is_empty() {
        let elements: Vec<Element> =
            step.iter().map(|&number| element(shown, number, legend)).collect();
        step = Vec::new();
        for other in elements.iter().flat_map(|element| element.links.iter().map(|link| link.1)) {
            if !seen.contains(&other) {
                seen.push(other);
                step.push(other);
            }
        }
        columns.push(elements);
    }
    columns
}

fn element(shown: &Interpretation, number: u16, legend: &Legend) -> Element {
    let mut element = Element { number, names: Vec::new(), links: Vec::new() };
    for row in shown.rows.iter().filter(|row| row[1] == number) {
        match *row {
            [0, _, name, _] => element.names.push(legend.name(name)),
            [_, _, role, other] => match element.links.iter_mut().find(|link| link.1 == other) {
                Some((roles, _)) => roles.push(legend.role(role)),
                None => element.links.push((vec![legend.role(role)], other)),
            },
        }
    }
    element
}

/// A line for each of these elements, and how many others there are.
pub fn sentences(columns: &[Vec<Element>], size: u16) -> String {
    let mut said = String::new();
    for element in columns.iter().flatten() {
        let mut parts = match element.names.is_empty() {
            true => vec!["bears no name".to_string()],
            false => vec![format!("is {}", element.names.join(", "))],
        };
        let link =
            |(roles, other): &(Vec<String>, u16)| format!("{} thing {}", roles.join(", "), other);
        parts.extend(element.links.iter().map(link));
        said += &format!("  thing {} {}\n", element.number, parts.join("; "));
    }
    match usize::from(size) - columns.iter().flatten().count() {
        0 => said,
        1 => said + "  (and one thing more, to which none of these is linked)\n",
        others => {
            said + &format!("  (and {} things more, to which none of these is linked)\n", others)
        }
    }
}
