//! The elements of an SVG picture, one a line.

/// The elements of a class.
pub fn elements<'a>(svg: &'a str, class: &str) -> Vec<&'a str> {
    let class = format!(" class=\"{class}\"");
    svg.lines().filter(|line| line.contains(&class)).collect()
}

pub fn attribute<'a>(element: &'a str, name: &str) -> &'a str {
    let start = element.find(&format!(" {name}=\"")).expect(name) + name.len() + 3;
    let length = element[start..].find('"').expect("a quote at its end");
    &element[start..start + length]
}

pub fn number(element: &str, name: &str) -> f64 {
    attribute(element, name).parse().expect(name)
}
