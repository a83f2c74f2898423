//! A sheet as lines that one can read and write by hand.
//!
//! A line is `particle x y [pinned]`, `triangle a b c`, `edge a b [structural]`, `boundary a b` or `blade x0 y0 x1 y1`; `#` starts a comment. Lines of one kind keep
//! their order, and there is one blade. Particles are numbered from 0 as they stand. A boundary need not be typed: the bench finds the outline of a mesh.
use crate::sheet::{Sheet, SheetEdge, SheetParticle};
use std::error::Error;
use std::fmt;
use std::str::FromStr;

/// What is wrong with the text of a sheet, and in which line.
#[derive(Clone, Debug, PartialEq, Eq)]
pub struct TextError {
    /// The line, from 1; 0 where no line is at fault.
    pub line: usize,
    /// What is wrong.
    pub why: &'static str,
}
impl fmt::Display for TextError {
    fn fmt(&self, f: &mut fmt::Formatter<'_>) -> fmt::Result {
        match self.line {
            0 => f.write_str(self.why),
            n => write!(f, "line {n}: {}", self.why),
        }
    }
}
impl Error for TextError {}

impl fmt::Display for Sheet {
    fn fmt(&self, f: &mut fmt::Formatter<'_>) -> fmt::Result {
        if self.replaced {
            writeln!(
                f,
                "# outline replaced: the boundary that was typed is not the outline of the mesh, which stands here"
            )?;
        }
        for p in &self.particles {
            writeln!(f, "particle {} {}{}", p.x, p.y, if p.pinned { " pinned" } else { "" })?;
        }
        for [a, b, c] in &self.triangles {
            writeln!(f, "triangle {a} {b} {c}")?;
        }
        for e in &self.edges {
            let [a, b] = e.ends;
            writeln!(f, "edge {a} {b}{}", if e.structural { " structural" } else { "" })?;
        }
        for [a, b] in &self.boundary {
            writeln!(f, "boundary {a} {b}")?;
        }
        let [x0, y0, x1, y1] = self.blade;
        writeln!(f, "blade {x0} {y0} {x1} {y1}")
    }
}

impl FromStr for Sheet {
    type Err = TextError;

    fn from_str(text: &str) -> Result<Sheet, TextError> {
        let mut sheet = Sheet::default();
        let mut blades = 0;
        for (line, words) in (1..).zip(text.lines()) {
            let wrong = |why| TextError { line, why };
            let words: Vec<&str> = words.split('#').next().unwrap_or("").split_whitespace().collect();
            let Some((&kind, rest)) = words.split_first() else { continue };
            let flagged = matches!((kind, rest.last()), ("particle", Some(&"pinned")) | ("edge", Some(&"structural")));
            let numbers = &rest[..rest.len() - usize::from(flagged)];
            let numbers: Result<Vec<i32>, _> = numbers.iter().map(|w| w.parse()).collect();
            let n = numbers.map_err(|_| wrong("a whole number is wanted"))?;
            let place = matches!(kind, "particle" | "blade");
            if place && n.iter().any(|k| !(-1024..=1023).contains(k)) {
                return Err(wrong("a coordinate lies from -1024 to 1023"));
            }
            if !place && n.iter().any(|k| !(0..=1023).contains(k)) {
                return Err(wrong("a particle's number lies from 0 to 1023"));
            }
            let number = |k: i32| k as u32;
            match (kind, n.as_slice()) {
                ("particle", &[x, y]) => sheet.particles.push(SheetParticle { x, y, pinned: flagged }),
                ("triangle", &[a, b, c]) => sheet.triangles.push([a, b, c].map(number)),
                ("edge", &[a, b]) => sheet.edges.push(SheetEdge { ends: [a, b].map(number), structural: flagged }),
                ("boundary", &[a, b]) => sheet.boundary.push([a, b].map(number)),
                ("blade", &[x0, y0, x1, y1]) => {
                    sheet.blade = [x0, y0, x1, y1];
                    blades += 1;
                }
                ("particle", _) => return Err(wrong("a particle has two numbers, x and y, and may be pinned")),
                ("triangle", _) => return Err(wrong("a triangle has three numbers, its particles")),
                ("edge", _) => return Err(wrong("an edge has two numbers, its particles, and may be structural")),
                ("boundary", _) => return Err(wrong("a boundary entry has two numbers, its particles")),
                ("blade", _) => return Err(wrong("a blade has four numbers, x and y of its ends")),
                _ => return Err(wrong("a line starts with particle, triangle, edge, boundary or blade")),
            }
        }
        match blades {
            1 => Ok(sheet),
            0 => Err(TextError { line: 0, why: "there is no line with the blade" }),
            _ => Err(TextError { line: 0, why: "there is more than one blade" }),
        }
    }
}
