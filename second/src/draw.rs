//! A flow's grammar drawn as nested sets: an SVG picture.

use crate::field::Mark;
use crate::flows::{named, Flow, Layout, Rule};
use crate::grammar::{Kind, Set};
use crate::refusal::Refusal;
use std::fmt::Write;
use std::sync::Arc;

const WIDTH: usize = 780;
const STEP: usize = 16;
const ROW: usize = 30;
const CAPTION: usize = 22;

/// The picture of the flow that words ask for, with the words as its title: a bar a kind, and a frame
/// around what may be repeated or chosen.
pub fn picture(words: &str) -> Result<String, Refusal> {
    let flow = named(words.as_bytes())?;
    let mut pen = Pen { flow, shapes: String::new(), y: 40 };
    pen.set(&flow.grammar, 1);
    let feed = if flow.needs_last_line_feed { "needed" } else { "may be absent" };
    let (height, foot) = (pen.y + 34, pen.y + 18);
    Ok(format!(
        "<svg xmlns=\"http://www.w3.org/2000/svg\" width=\"{w}\" height=\"{height}\" viewBox=\"0 0 {w} {height}\" \
         font-family=\"DejaVu Sans Mono, monospace\" font-size=\"12\">\n\
         <title>{words} as nested sets</title>\n\
         <rect width=\"{w}\" height=\"{height}\" fill=\"white\"/>\n\
         <text x=\"{STEP}\" y=\"26\" font-size=\"16\" font-weight=\"bold\">{words}</text>\n\
         {shapes}<text x=\"{STEP}\" y=\"{foot}\" fill=\"#555\">last line feed: {feed}</text>\n</svg>\n",
        w = WIDTH,
        shapes = pen.shapes,
    ))
}

/// What is drawn so far, and how far down it reaches.
struct Pen<'a> {
    flow: &'a Flow,
    shapes: String,
    y: usize,
}

impl Pen<'_> {
    fn set(&mut self, set: &Arc<Set>, depth: usize) {
        match &**set {
            Set::Done => {}
            Set::One(kind) => self.kind(kind, depth),
            Set::Headed(head, under) => {
                self.kind(head, depth);
                self.set(under, depth);
            }
            Set::Then(first, second) => match &**second {
                Set::AnyNumber(again) if Arc::ptr_eq(first, again) => {
                    self.frame("one or more", &[first], depth)
                }
                _ => {
                    self.set(first, depth);
                    self.set(second, depth);
                }
            },
            Set::Either(first, second) => {
                self.frame("either the first or the second, never both", &[first, second], depth)
            }
            Set::AnyNumber(set) => self.frame("any number, or none", &[set], depth),
        }
    }

    /// A frame around sets, with a caption.
    fn frame(&mut self, caption: &str, sets: &[&Arc<Set>], depth: usize) {
        let top = self.y;
        self.text(depth, top + 16, "fill=\"#246\" font-style=\"italic\"", caption);
        self.y += CAPTION;
        for set in sets {
            self.set(set, depth + 1);
        }
        self.y += 4;
        self.rect(depth, top, self.y - top, "fill=\"none\" stroke=\"#246\" stroke-dasharray=\"5 3\"");
        self.y += 8;
    }

    /// A bar with a kind, the types of its fields and its key.
    fn kind(&mut self, kind: &Kind, depth: usize) {
        let name = String::from_utf8_lossy(kind);
        self.rect(depth, self.y, ROW - 6, "fill=\"#eef3fa\" stroke=\"#456\"");
        self.text(depth, self.y + 16, "font-weight=\"bold\"", &name);
        if let Some(layout) = self.flow.layout(kind) {
            self.text(depth + 3, self.y + 16, "", &fields(layout));
        }
        self.y += ROW;
    }

    fn rect(&mut self, depth: usize, y: usize, height: usize, look: &str) {
        let (x, width) = (depth * STEP, WIDTH - 2 * depth * STEP);
        self.put(format_args!(
            "<rect x=\"{x}\" y=\"{y}\" width=\"{width}\" height=\"{height}\" rx=\"5\" {look}/>\n"
        ));
    }

    fn text(&mut self, depth: usize, y: usize, look: &str, words: &str) {
        let x = depth * STEP + 8;
        self.put(format_args!("<text x=\"{x}\" y=\"{y}\" {look}>{words}</text>\n"));
    }

    fn put(&mut self, shape: std::fmt::Arguments) {
        self.shapes.write_fmt(shape).expect("a string takes all that is written");
    }
}

/// The fields of a kind from field 2 on, and its key, in the papers' spelling.
fn fields(layout: &Layout) -> String {
    let rules: Vec<String> = layout.rules.iter().map(spelled).collect();
    let key = match layout.key {
        Some(key) => {
            let repeat = if key.equal_allowed { ", may repeat" } else { "" };
            format!("; key: field {} within {}{}", key.field, String::from_utf8_lossy(&key.head), repeat)
        }
        None => String::new(),
    };
    format!("{}{}", rules.join(", "), key)
}

fn spelled(rule: &Rule) -> String {
    let form = rule.form.spelling();
    match &rule.mark {
        Mark::None => form,
        Mark::Opt => format!("{} opt", form),
        Mark::Fixed(value) => format!("{} ={}", form, String::from_utf8_lossy(value)),
    }
}
