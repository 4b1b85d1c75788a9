//! A picture, element by element.
use std::fmt::Write;

/// An SVG that is being drawn. Places are written with one decimal, which Rust rounds alike on every machine.
pub struct Svg {
    text: String,
}

/// Text as it may stand between tags and in attributes.
fn escape(text: &str) -> String {
    text.replace('&', "&amp;").replace('<', "&lt;").replace('>', "&gt;").replace('"', "&quot;")
}

impl Svg {
    /// An empty picture on white; the title is what a reader without eyes gets.
    pub fn new(width: f64, height: f64, title: &str) -> Svg {
        let mut svg = Svg { text: String::new() };
        svg.put(format_args!(
            "<svg xmlns=\"http://www.w3.org/2000/svg\" width=\"{width:.0}\" height=\"{height:.0}\" viewBox=\"0 0 {width:.0} {height:.0}\" \
             font-family=\"sans-serif\" font-size=\"13\" fill=\"#222\">\n<title>{}</title>",
            escape(title)
        ));
        svg.put(format_args!("<rect class=\"paper\" width=\"{width:.0}\" height=\"{height:.0}\" fill=\"#fff\"/>"));
        svg
    }

    fn put(&mut self, what: std::fmt::Arguments) {
        // writing to a string does not fail
        let _ = writeln!(self.text, "{what}");
    }

    pub fn open_group(&mut self, class: &str, style: &str) {
        self.put(format_args!("<g class=\"{class}\" {style}>"));
    }

    pub fn close_group(&mut self) {
        self.put(format_args!("</g>"));
    }

    pub fn rect(&mut self, class: &str, [x, y, width, height]: [f64; 4], style: &str) {
        self.put(format_args!("<rect class=\"{class}\" x=\"{x:.1}\" y=\"{y:.1}\" width=\"{width:.1}\" height=\"{height:.1}\" {style}/>"));
    }

    pub fn line(&mut self, class: &str, [x, y, u, v]: [f64; 4], style: &str) {
        self.put(format_args!("<line class=\"{class}\" x1=\"{x:.1}\" y1=\"{y:.1}\" x2=\"{u:.1}\" y2=\"{v:.1}\" {style}/>"));
    }

    pub fn circle(&mut self, class: &str, [x, y, r]: [f64; 3], style: &str) {
        self.put(format_args!("<circle class=\"{class}\" cx=\"{x:.1}\" cy=\"{y:.1}\" r=\"{r:.1}\" {style}/>"));
    }

    pub fn text(&mut self, [x, y]: [f64; 2], style: &str, words: &str) {
        self.put(format_args!("<text x=\"{x:.1}\" y=\"{y:.1}\" {style}>{}</text>", escape(words)));
    }

    pub fn path(&mut self, class: &str, points: &[[f64; 2]], style: &str) {
        let places: Vec<String> = points.iter().map(|[x, y]| format!("{x:.1},{y:.1}")).collect();
        self.put(format_args!("<polyline class=\"{class}\" points=\"{}\" fill=\"none\" {style}/>", places.join(" ")));
    }

    /// The whole picture.
    pub fn end(mut self) -> String {
        self.put(format_args!("</svg>"));
        self.text
    }
}
