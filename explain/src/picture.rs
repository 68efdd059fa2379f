//! A shown interpretation (01: stock) as an SVG picture: a box an element, in columns by the number of links on the way. A
//! link to the next column is an arrow; any other, back or to the element itself, is a line of words in the box, since
//! arrows across boxes are easily taken for others.

use std::collections::HashMap;

use crate::interpretation::Element;

const LINE: f64 = 19.0;
/// Between boxes of a column, and at the edges.
const GAP: f64 = 24.0;
/// What a character takes at most, for the widths of boxes and between columns.
const CHARACTER: f64 = 9.0;

/// What stands for characters that have a meaning in XML.
fn escaped(words: &str) -> String {
    words.replace('&', "&amp;").replace('<', "&lt;").replace('>', "&gt;").replace('"', "&quot;")
}

fn width_of(words: &str) -> f64 {
    CHARACTER * words.chars().count() as f64
}

fn text(x: f64, y: f64, words: &str, style: &str) -> String {
    format!(
        "<text x=\"{}\" y=\"{}\" text-anchor=\"middle\"{}>{}</text>\n",
        x,
        y,
        style,
        escaped(words)
    )
}

/// A box: its element, the lines in it, and where its middle is.
struct Drawn<'a> {
    element: &'a Element,
    lines: Vec<(String, &'static str)>,
    x: f64,
    y: f64,
    width: f64,
}

const QUIET: &str = " font-style=\"italic\" fill=\"#64748b\"";
const ITALIC: &str = " font-style=\"italic\"";
/// With a white rim, where arrows cross.
const ON_AN_ARROW: &str =
    " font-style=\"italic\" stroke=\"white\" stroke-width=\"4\" paint-order=\"stroke\"";

impl Drawn<'_> {
    fn height(&self) -> f64 {
        LINE * self.lines.len() as f64 + 12.0
    }

    fn draw(&self, is_first: bool) -> String {
        let (stroke, thick) = if is_first { ("#c2410c", 3.0) } else { ("#475569", 1.5) };
        let (left, top) = (self.x - self.width / 2.0, self.y - self.height() / 2.0);
        let mut drawn = format!(
            "<rect x=\"{}\" y=\"{}\" width=\"{}\" height=\"{}\" rx=\"12\" fill=\"white\" stroke=\"{}\" \
             stroke-width=\"{}\"/>\n",
            left, top, self.width, self.height(), stroke, thick
        );
        for (k, (words, style)) in self.lines.iter().enumerate() {
            drawn += &text(self.x, top + LINE * (k + 1) as f64, words, style);
        }
        drawn
    }
}

/// What stands in the box of an element: its number, its names, and the links that no arrow shows.
fn lines(
    element: &Element,
    column: usize,
    columns: &HashMap<u16, usize>,
) -> Vec<(String, &'static str)> {
    let mut lines =
        vec![(format!("thing {}", element.number), " font-size=\"12\" fill=\"#64748b\"")];
    if element.names.is_empty() {
        lines.push(("no name".to_string(), QUIET));
    }
    lines.extend(element.names.iter().map(|name| (name.clone(), "")));
    for (roles, other) in element.links.iter().filter(|link| columns[&link.1] != column + 1) {
        lines.push((format!("{} thing {}", roles.join(", "), other), ITALIC));
    }
    lines
}

/// The boxes, column by column, and the size of the picture.
fn boxes(columns: &[Vec<Element>]) -> (Vec<Drawn<'_>>, (f64, f64)) {
    let of: HashMap<u16, usize> = columns
        .iter()
        .enumerate()
        .flat_map(|(c, column)| column.iter().map(move |element| (element.number, c)))
        .collect();
    let mut drawn: Vec<Drawn> = Vec::new();
    let (mut left, mut high) = (GAP, 0.0_f64);
    for (c, column) in columns.iter().enumerate() {
        let contents: Vec<_> = column.iter().map(|element| lines(element, c, &of)).collect();
        let widest = contents.iter().flatten().map(|line| width_of(&line.0)).fold(130.0, f64::max);
        let width = widest + 20.0;
        let mut y = GAP;
        for (element, lines) in column.iter().zip(contents) {
            let mut one = Drawn { element, lines, x: left + width / 2.0, y, width };
            one.y += one.height() / 2.0;
            y += one.height() + GAP;
            drawn.push(one);
        }
        high = high.max(y);
        let forwards =
            column.iter().flat_map(|element| &element.links).filter(|link| of[&link.1] == c + 1);
        let label = forwards.map(|link| width_of(&link.0.join(", "))).fold(60.0, f64::max);
        left += width + if c + 1 < columns.len() { label + 50.0 } else { GAP };
    }
    (drawn, (left, high))
}

/// An arrow from the right side of one box to the left side of the other, with its roles nearer to its end, where arrows
/// from one box lie apart.
fn draw_link(from: &Drawn, to: &Drawn, roles: &[String]) -> String {
    let (x1, x2) = (from.x + from.width / 2.0, to.x - to.width / 2.0 - 4.0);
    let at = (x1 + 0.55 * (x2 - x1), from.y + 0.55 * (to.y - from.y) - 6.0);
    format!(
        "<path d=\"M{},{} L{},{}\" stroke=\"#475569\" stroke-width=\"1.5\" marker-end=\"url(#tip)\"/>\n{}",
        x1, from.y, x2, to.y, text(at.0, at.1, &roles.join(", "), ON_AN_ARROW)
    )
}

/// The picture; the first element is the one to look at.
pub fn draw(columns: &[Vec<Element>]) -> String {
    let (boxes, (wide, high)) = boxes(columns);
    let by_number: HashMap<u16, &Drawn> =
        boxes.iter().map(|one| (one.element.number, one)).collect();
    let mut drawn = format!(
        "<svg xmlns=\"http://www.w3.org/2000/svg\" viewBox=\"0 0 {0} {1}\" width=\"{0}\" font-family=\"sans-serif\" \
         font-size=\"15\" fill=\"#0f172a\">\n<defs><marker id=\"tip\" markerWidth=\"8\" markerHeight=\"8\" refX=\"7\" \
         refY=\"4\" orient=\"auto\"><path d=\"M0,0 L8,4 L0,8 z\" fill=\"#475569\"/></marker></defs>\n",
        wide, high
    );
    for one in &boxes {
        for (roles, other) in &one.element.links {
            let other = by_number[other];
            if other.x > one.x {
                drawn += &draw_link(one, other, roles);
            }
        }
    }
    for (k, one) in boxes.iter().enumerate() {
        drawn += &one.draw(k == 0);
    }
    drawn + "</svg>\n"
}

#[cfg(test)]
mod tests {
    use super::draw;
    use crate::interpretation::columns;
    use crate::words::Legend;
    use hermitcasket::Interpretation;

    /// 0 to 1 to 2 and back to 0, and 1 to itself: two arrows, and the others in words.
    #[test]
    fn only_links_to_the_next_column_are_arrows() {
        let rows = vec![[1, 0, 1, 1], [1, 1, 2, 2], [1, 2, 3, 0], [1, 1, 4, 1], [1, 1, 5, 1]];
        let shown = Interpretation { size: 3, rows };
        let drawn = draw(&columns(&shown, 0, &Legend::default()));
        assert_eq!(drawn.matches("marker-end").count(), 2, "{}", drawn);
        assert!(
            drawn.contains(">role 3 thing 0<") && drawn.contains(">role 4, role 5 thing 1<"),
            "{}",
            drawn
        );
    }

    #[test]
    fn words_are_escaped_and_boxes_as_wide_as_them() {
        let legend = Legend::read("name 7 salt & <pepper> from the large mill by the river\n")
            .expect("a legend");
        let shown = Interpretation { size: 1, rows: vec![[0, 0, 7, 0]] };
        let drawn = draw(&columns(&shown, 0, &legend));
        assert!(
            drawn.contains(">salt &amp; &lt;pepper&gt; from the large mill by the river<"),
            "{}",
            drawn
        );
        assert!(drawn.contains("width=\"452\" height"), "{}", drawn);
    }
}
