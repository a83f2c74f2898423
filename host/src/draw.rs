//! Pictures of meshes and of cuts, as SVG.
use crate::mesh::Mesh;
use crate::pieces::Piece;
use crate::refusal::Refusal;
use crate::tear::{Event, Torn};
use std::fmt::Write;

/// The side of a drawing, and the space around it.
const SIDE: f32 = 420.0;
const MARGIN: f32 = 24.0;
const HEAD: f32 = 40.0;
const LINE: f32 = 22.0;
/// Up to so many particles are numbered; so many pieces have a line in a legend.
const NUMBERED: usize = 40;
const LISTED: usize = 10;
/// The colours of pieces, in turn; none is near the blade's red.
const COLOURS: [&str; 10] =
    ["#8ecae6", "#ffc857", "#95d5a0", "#c3aed6", "#f4a988", "#7fd1c7", "#d9c79e", "#9db4f0", "#c7d36f", "#e6b8cf"];
const BLADE: &str = "#d00000";

/// Where things stand in a drawing, which is SIDE wide and as high as the mesh asks for.
struct Frame {
    low: [f32; 2],
    scale: f32,
    shift: [f32; 2],
    high: f32,
}
impl Frame {
    /// The frame that holds all these meshes, with a tenth of the side free around them.
    fn around(meshes: &[&Mesh]) -> Frame {
        let points = || meshes.iter().flat_map(|m| m.particles.iter().map(|p| p.position));
        if points().next().is_none() {
            return Frame { low: [0.0; 2], scale: 1.0, shift: [0.0; 2], high: 0.3 * SIDE };
        }
        let bound = |k: usize, start: f32, pick: fn(f32, f32) -> f32| points().fold(start, |x, p| pick(x, p[k]));
        let low = [0, 1].map(|k| bound(k, f32::INFINITY, f32::min));
        let wide = [0, 1].map(|k| bound(k, f32::NEG_INFINITY, f32::max) - low[k]);
        let scale = 0.8 * SIDE / wide[0].max(wide[1]).max(1e-6);
        let high = (wide[1] * scale + 0.2 * SIDE).max(0.3 * SIDE);
        Frame { low, scale, shift: [(SIDE - wide[0] * scale) / 2.0, (high - wide[1] * scale) / 2.0], high }
    }
    /// A place of the mesh in the drawing; y goes up in a mesh and down in a picture.
    fn at(&self, p: [f32; 2]) -> [f32; 2] {
        let x = (p[0] - self.low[0]) * self.scale + self.shift[0];
        let y = (p[1] - self.low[1]) * self.scale + self.shift[1];
        [x, self.high - y]
    }
}

fn mean(points: &[[f32; 2]]) -> [f32; 2] {
    let n = points.len().max(1) as f32;
    [0, 1].map(|k| points.iter().map(|p| p[k]).sum::<f32>() / n)
}
/// From a by a length towards b.
fn towards(a: [f32; 2], b: [f32; 2], length: f32) -> [f32; 2] {
    let d = [b[0] - a[0], b[1] - a[1]];
    let far = d[0].hypot(d[1]);
    if far < 1e-6 { a } else { [a[0] + d[0] / far * length, a[1] + d[1] / far * length] }
}

/// A number with up to three places.
fn short(x: f32) -> String {
    let s = format!("{x:.3}");
    s.trim_end_matches('0').trim_end_matches('.').to_string()
}
fn many(n: usize, one: &str, more: &str) -> String {
    format!("{n} {}", if n == 1 { one } else { more })
}

/// One drawing: a mesh, its pieces, and where each particle of each piece is drawn.
struct Drawing<'a> {
    mesh: &'a Mesh,
    pieces: &'a [Piece],
    frame: &'a Frame,
    /// How far things that were parted are drawn apart.
    gap: f32,
}
impl Drawing<'_> {
    fn corners(&self, element: u32) -> Vec<u32> {
        match self.mesh.triangles.get(element as usize) {
            Some(t) => t.corners.to_vec(),
            None => self.mesh.edges[element as usize].ends.to_vec(),
        }
    }
    fn plain(&self, v: u32) -> [f32; 2] {
        self.frame.at(self.mesh.particles[v as usize].position)
    }
    /// Whether another particle of its piece stands at the same place: a slit, as the two were one.
    fn slit(&self, piece: &Piece, v: u32) -> bool {
        let place = |v: &u32| self.mesh.particles[*v as usize].position;
        piece.particles.iter().filter(|u| place(u) == place(&v)).count() > 1
    }
    /// Where a particle of a piece is drawn: the piece moved off the middle, and a side of a slit drawn back into its elements.
    fn place(&self, piece: &Piece, v: u32) -> [f32; 2] {
        let mut at = self.plain(v);
        if self.gap == 0.0 {
            return at;
        }
        if self.slit(piece, v) {
            let own: Vec<[f32; 2]> = piece
                .elements
                .iter()
                .map(|e| self.corners(*e))
                .filter(|c| c.contains(&v))
                .map(|c| mean(&c.iter().map(|u| self.plain(*u)).collect::<Vec<_>>()))
                .collect();
            at = towards(at, mean(&own), self.gap);
        }
        if self.pieces.len() < 2 {
            return at;
        }
        let whole = mean(&(0..self.mesh.particles.len() as u32).map(|v| self.plain(v)).collect::<Vec<_>>());
        let middle = mean(&piece.particles.iter().map(|v| self.plain(*v)).collect::<Vec<_>>());
        let moved = towards(whole, middle, 1.5 * self.gap);
        [at[0] + moved[0] - whole[0], at[1] + moved[1] - whole[1]]
    }
    /// Where a particle is drawn by itself: in the first piece that holds it.
    fn lone(&self, v: u32) -> [f32; 2] {
        match self.pieces.iter().find(|p| p.particles.binary_search(&v).is_ok()) {
            Some(piece) => self.place(piece, v),
            None => self.plain(v),
        }
    }
    /// A line between two particles, drawn in the piece that holds both if there is one.
    fn line(&self, out: &mut String, [a, b]: [u32; 2], style: &str) {
        let both = |piece: &&Piece| [a, b].iter().all(|v| piece.particles.binary_search(v).is_ok());
        let ([x0, y0], [x1, y1]) = match self.pieces.iter().find(both) {
            Some(piece) => (self.place(piece, a), self.place(piece, b)),
            None => (self.lone(a), self.lone(b)),
        };
        let _ = writeln!(out, r#"<line x1="{x0:.1}" y1="{y0:.1}" x2="{x1:.1}" y2="{y1:.1}" {style}/>"#);
    }
    fn elements(&self, out: &mut String) {
        let straps = self.mesh.triangles.is_empty();
        for (piece, colour) in self.pieces.iter().zip(COLOURS.iter().cycle()) {
            for element in &piece.elements {
                let at: Vec<[f32; 2]> = self.corners(*element).iter().map(|v| self.place(piece, *v)).collect();
                let points: Vec<String> = at.iter().map(|[x, y]| format!("{x:.1},{y:.1}")).collect();
                let points = points.join(" ");
                let _ = match straps {
                    true => writeln!(
                        out,
                        r##"<polyline points="{points}" fill="none" stroke="#444" stroke-width="11" stroke-linecap="round"/><polyline points="{points}" fill="none" stroke="{colour}" stroke-width="8" stroke-linecap="round"/>"##
                    ),
                    false => writeln!(
                        out,
                        r##"<polygon points="{points}" fill="{colour}" stroke="#fff" stroke-width="1.2" stroke-linejoin="round"/>"##
                    ),
                };
            }
        }
    }
    fn lines(&self, out: &mut String) {
        let straps = self.mesh.triangles.is_empty();
        for e in &self.mesh.edges {
            match (straps, e.structural) {
                (true, true) => {}
                (false, true) => self.line(out, e.ends, r##"stroke="#4a5560" stroke-width="1.4""##),
                (_, false) => self.line(out, e.ends, r##"stroke="#6b7680" stroke-width="1" stroke-dasharray="4 3""##),
            }
        }
        for entry in &self.mesh.boundary {
            let style = if straps {
                r##"stroke="#1d3557" stroke-width="1.2""##
            } else {
                r##"stroke="#1d3557" stroke-width="2.6" stroke-linecap="round""##
            };
            self.line(out, *entry, style);
        }
    }
    /// A dot for each piece that holds a particle, and its number at the first.
    fn dots(&self, out: &mut String) {
        for (v, p) in (0..).zip(&self.mesh.particles) {
            let holders = self.pieces.iter().filter(|piece| piece.particles.binary_search(&v).is_ok());
            let mut places: Vec<[f32; 2]> = holders.map(|piece| self.place(piece, v)).collect();
            if places.is_empty() {
                places.push(self.plain(v));
            }
            for [x, y] in &places {
                let _ = match p.inverse_mass == 0.0 {
                    true => writeln!(
                        out,
                        r##"<circle cx="{x:.1}" cy="{y:.1}" r="6" fill="#111" stroke="#fff" stroke-width="1.5"/>"##
                    ),
                    false => writeln!(out, r##"<circle cx="{x:.1}" cy="{y:.1}" r="2.2" fill="#1d3557"/>"##),
                };
            }
            if self.mesh.particles.len() <= NUMBERED {
                let [x, y] = places[0];
                let _ = writeln!(
                    out,
                    r##"<text x="{:.1}" y="{:.1}" font-size="11" fill="#1d3557" stroke="#fff" stroke-width="3" paint-order="stroke">{v}</text>"##,
                    x + 6.0,
                    y - 6.0
                );
            }
        }
    }
    /// A dot on the blade for each point at which it crosses the mesh.
    fn crossings(&self, out: &mut String, crossings: &[Event]) {
        let mut drawn: Vec<[f32; 2]> = vec![];
        for event in crossings {
            let Event::Crossed { at, .. } = event else { continue };
            if drawn.contains(at) {
                continue;
            }
            drawn.push(*at);
            let [x, y] = self.frame.at(*at);
            let _ = writeln!(
                out,
                r##"<circle cx="{x:.1}" cy="{y:.1}" r="3.8" fill="{BLADE}" stroke="#fff" stroke-width="1.4"/>"##
            );
        }
    }
    fn blade(&self, out: &mut String, [x0, y0, x1, y1]: [f32; 4], id: &str) {
        let ([ax, ay], [bx, by]) = (self.frame.at([x0, y0]), self.frame.at([x1, y1]));
        if self.gap > 0.0 {
            let _ = writeln!(
                out,
                r##"<g clip-path="url(#{id})"><line x1="{ax:.1}" y1="{ay:.1}" x2="{bx:.1}" y2="{by:.1}" stroke="{BLADE}" stroke-opacity="0.5" stroke-width="1.2" stroke-dasharray="2 5"/></g>"##
            );
            return;
        }
        let _ = writeln!(
            out,
            r##"<g clip-path="url(#{id})"><line x1="{ax:.1}" y1="{ay:.1}" x2="{bx:.1}" y2="{by:.1}" stroke="{BLADE}" stroke-width="2.4" stroke-linecap="round"/><circle cx="{ax:.1}" cy="{ay:.1}" r="4" fill="{BLADE}"/><circle cx="{bx:.1}" cy="{by:.1}" r="4" fill="#fff" stroke="{BLADE}" stroke-width="2"/></g>"##
        );
    }
}

/// What a picture shows in one panel.
struct Panel<'a> {
    title: String,
    mesh: &'a Mesh,
    pieces: Vec<Piece>,
    blade: [f32; 4],
    /// The events of the cut along that blade whose crossings are shown.
    crossings: &'a [Event],
    gap: f32,
    /// What stands in the legend behind the pieces.
    notes: Vec<String>,
}
impl Panel<'_> {
    fn legend(&self) -> Vec<(Option<&'static str>, String)> {
        let straps = self.mesh.triangles.is_empty();
        let mut lines: Vec<(Option<&str>, String)> = vec![];
        for (k, p) in self.pieces.iter().enumerate().take(LISTED) {
            let n = p.elements.len();
            let what = if straps { many(n, "strap", "straps") } else { many(n, "triangle", "triangles") };
            let measure = if straps { "length" } else { "area" };
            lines.push((
                Some(COLOURS[k % COLOURS.len()]),
                format!("piece {}: {what}, {measure} {}, mass {}", k + 1, short(p.measure), short(p.mass)),
            ));
        }
        if self.pieces.len() > LISTED {
            lines.push((None, format!("and {} more", many(self.pieces.len() - LISTED, "piece", "pieces"))));
        }
        lines.extend(self.notes.iter().map(|note| (None, note.clone())));
        lines
    }
    fn svg(&self, out: &mut String, frame: &Frame, left: f32, id: &str) {
        let d = Drawing { mesh: self.mesh, pieces: &self.pieces, frame, gap: self.gap };
        let high = frame.high;
        let _ = writeln!(out, r##"<g transform="translate({left:.0},{MARGIN})">"##);
        let _ = writeln!(
            out,
            r##"<text x="0" y="18" font-size="17" font-weight="bold" fill="#222">{}</text>"##,
            self.title
        );
        let _ = writeln!(
            out,
            r##"<g transform="translate(0,{HEAD})"><clipPath id="{id}"><rect width="{SIDE}" height="{high:.0}"/></clipPath><rect width="{SIDE}" height="{high:.0}" rx="8" fill="#f8f9fb" stroke="#d5dae0"/>"##
        );
        d.elements(out);
        d.lines(out);
        d.blade(out, self.blade, id);
        d.crossings(out, self.crossings);
        d.dots(out);
        let _ = writeln!(out, "</g>");
        for (k, (colour, text)) in (1..).zip(self.legend()) {
            let y = HEAD + high + LINE * k as f32 + 4.0;
            if let Some(colour) = colour {
                let _ = writeln!(
                    out,
                    r##"<rect x="0" y="{:.0}" width="14" height="14" rx="3" fill="{colour}" stroke="#667"/>"##,
                    y - 12.0
                );
            }
            let _ = writeln!(out, r##"<text x="22" y="{y:.0}" font-size="14" fill="#222">{text}</text>"##);
        }
        let _ = writeln!(out, "</g>");
    }
}

/// The panels beside each other, on one scale.
fn picture(panels: &[Panel]) -> String {
    let frame = Frame::around(&panels.iter().map(|p| p.mesh).collect::<Vec<_>>());
    let wide = MARGIN + panels.len() as f32 * (SIDE + MARGIN);
    let lines = panels.iter().map(|p| p.legend().len()).max().unwrap_or(0);
    let high = 2.0 * MARGIN + HEAD + frame.high + LINE * lines as f32;
    let mut out = format!(
        r##"<svg xmlns="http://www.w3.org/2000/svg" viewBox="0 0 {wide:.0} {high:.0}" width="{wide:.0}" height="{high:.0}" font-family="Helvetica, Arial, sans-serif">
<rect width="100%" height="100%" fill="#fff"/>
"##
    );
    for (k, panel) in panels.iter().enumerate() {
        panel.svg(&mut out, &frame, MARGIN + k as f32 * (SIDE + MARGIN), &format!("panel{k}"));
    }
    out + "</svg>\n"
}

/// How often each kind of entry stands in a log, in words.
fn summary(events: &[Event]) -> String {
    let count = |kind: fn(&Event) -> bool| events.iter().filter(|e| kind(e)).count();
    let copies = count(|e| matches!(e, Event::Split { .. }));
    let gone = count(|e| matches!(e, Event::Removed { .. }));
    let through = count(|e| matches!(e, Event::Inserted { .. }));
    let mut parts = vec![];
    if copies > 0 {
        parts.push(many(copies, "new copy of a particle", "new copies of particles"));
    }
    if through > 0 {
        parts.push(many(through, "strap cut through", "straps cut through"));
    }
    if gone > 0 {
        parts.push(many(gone, "edge removed", "edges removed"));
    }
    parts.join(", ")
}

/// How many sides or straps the blade of a cut crosses, in words; nothing where it crosses none.
fn crossed(torn: &Torn) -> Vec<String> {
    let mut sides: Vec<[u32; 2]> = vec![];
    for event in &torn.events {
        if let Event::Crossed { a, b, .. } = event {
            sides.push([*a.min(b), *a.max(b)]);
        }
    }
    sides.sort_unstable();
    // A side of two triangles is told by both; two straps may lie between the same ends.
    let straps = torn.mesh.triangles.is_empty();
    if !straps {
        sides.dedup();
    }
    let what = if straps { many(sides.len(), "strap", "straps") } else { many(sides.len(), "side", "sides") };
    if sides.is_empty() { vec![] } else { vec![format!("the blade crosses {what} (dots)")] }
}

/// The edges, other than elements, whose ends lie in two pieces.
fn straddlers(mesh: &Mesh, pieces: &[Piece]) -> usize {
    let of = |v: u32| pieces.iter().position(|p| p.particles.binary_search(&v).is_ok());
    let between = |[a, b]: [u32; 2]| of(a).zip(of(b)).is_some_and(|(p, q)| p != q);
    mesh.edges.iter().filter(|e| between(e.ends)).count()
}

/// A mesh with a blade, as SVG: triangles or straps coloured by piece, the outline, pins as black dots, the blade in red (its first end full).
///
/// ```
/// # let mut mesh = cutting_bench::Mesh::new();
/// # for (x, y) in [(0.0, 0.0), (4.0, 0.0), (4.0, 4.0)] { mesh.add_particle(x, y); }
/// mesh.add_triangle(0, 1, 2);
/// let svg = cutting_bench::draw_mesh(&mesh, [0.0, 1.0, 4.0, 1.0])?;
/// assert_eq!(svg.matches("<polygon").count(), 1);
/// # Ok::<(), cutting_bench::Refusal>(())
/// ```
pub fn draw_mesh(mesh: &Mesh, blade: [f32; 4]) -> Result<String, Refusal> {
    let pieces = mesh.list_pieces()?;
    let title = many(pieces.len(), "piece", "pieces");
    Ok(picture(&[Panel { title, mesh, pieces, blade, crossings: &[], gap: 0.0, notes: vec![] }]))
}

/// A mesh and what a cut made of it, beside each other, as SVG: before, a dot on the blade where it crosses the mesh; after, what was parted is drawn slightly apart;
/// a legend tells the pieces and their masses.
///
/// ```
/// # let mut mesh = cutting_bench::Mesh::new();
/// # for (x, y) in [(0.0, 0.0), (4.0, 0.0), (4.0, 4.0), (0.0, 4.0)] { mesh.add_particle(x, y); }
/// # mesh.add_triangle(0, 1, 2);
/// # mesh.add_triangle(0, 2, 3);
/// let blade = [-1.0, -1.0, 5.0, 5.0];
/// let torn = mesh.cut(blade, cutting_bench::Edition::First, 0.1)?;
/// let svg = cutting_bench::draw_cut(&mesh, blade, &torn)?;
/// assert!(svg.contains("after the cut: 2 pieces"));
/// # Ok::<(), cutting_bench::Refusal>(())
/// ```
pub fn draw_cut(mesh: &Mesh, blade: [f32; 4], torn: &Torn) -> Result<String, Refusal> {
    let (old, new) = (mesh.list_pieces()?, torn.mesh.list_pieces()?);
    let counted = |pieces: &[Piece]| many(pieces.len(), "piece", "pieces");
    let unchanged = torn.events.iter().all(Event::is_mark);
    let changed = if unchanged { ", nothing changed" } else { "" };
    let titles = [format!("before: {}", counted(&old)), format!("after the cut: {}{changed}", counted(&new))];
    let mut notes = vec![];
    if !unchanged {
        notes.push(summary(&torn.events));
    }
    match straddlers(&torn.mesh, &new) {
        0 => {}
        n => notes.push(format!("{} two pieces (a straddler)", many(n, "edge still joins", "edges still join"))),
    }
    let [first, second] = titles;
    Ok(picture(&[
        Panel { title: first, mesh, pieces: old, blade, crossings: &torn.events, gap: 0.0, notes: crossed(torn) },
        Panel { title: second, mesh: &torn.mesh, pieces: new, blade, crossings: &[], gap: 7.0, notes },
    ]))
}

/// The colours of what both meshes have, the first alone, and the second alone.
const SHARED: [&str; 3] = ["#c9d0d8", "#1f77d0", "#e07b00"];

/// Triangles, edges and particles by where they stand, as points to draw; pins by a point twice.
fn shapes(mesh: &Mesh) -> Vec<Vec<[f32; 2]>> {
    let at = |v: &u32| mesh.particles[*v as usize].position;
    let mut all: Vec<Vec<[f32; 2]>> = mesh.triangles.iter().map(|t| t.corners.iter().map(at).collect()).collect();
    all.extend(mesh.edges.iter().map(|e| e.ends.iter().map(at).collect()));
    all.extend(mesh.particles.iter().map(|p| vec![p.position; 1 + 3 * usize::from(p.inverse_mass == 0.0)]));
    all
}
/// The same shape, from whichever corner it is told.
fn same(a: &[[f32; 2]], b: &[[f32; 2]]) -> bool {
    a.len() == b.len() && a.iter().all(|p| b.contains(p)) && b.iter().all(|p| a.contains(p))
}

/// Two meshes in one picture, as SVG: grey what both have at a place, blue what only the first has, orange what only the second has.
///
/// ```
/// # let mut a = cutting_bench::Mesh::new();
/// # for (x, y) in [(0.0, 0.0), (4.0, 0.0), (4.0, 4.0)] { a.add_particle(x, y); }
/// # a.add_triangle(0, 1, 2);
/// let mut b = a.clone();
/// b.particles[1].position[0] = 5.0;
/// let svg = cutting_bench::draw_difference(&a, &b);
/// assert_eq!(svg.matches("<polygon").count(), 2);
/// assert!(svg.contains("only in the first: 2") && svg.contains("only in the second: 2"));
/// ```
pub fn draw_difference(first: &Mesh, second: &Mesh) -> String {
    let frame = Frame::around(&[first, second]);
    let (a, b) = (shapes(first), shapes(second));
    let lone = |x: &[Vec<[f32; 2]>], y: &[Vec<[f32; 2]>], here: bool| -> Vec<Vec<[f32; 2]>> {
        x.iter().filter(|s| y.iter().any(|t| same(s, t)) == here).cloned().collect()
    };
    let layers = [lone(&a, &b, true), lone(&a, &b, false), lone(&b, &a, false)];
    let words = ["in both", "only in the first", "only in the second"];
    let (wide, high) = (SIDE + 2.0 * MARGIN, frame.high + 2.0 * MARGIN + 3.0 * LINE);
    let mut out = format!(
        r##"<svg xmlns="http://www.w3.org/2000/svg" viewBox="0 0 {wide:.0} {high:.0}" width="{wide:.0}" height="{high:.0}" font-family="Helvetica, Arial, sans-serif">
<rect width="100%" height="100%" fill="#fff"/>
<g transform="translate({MARGIN},{MARGIN})">
"##
    );
    for (layer, colour) in layers.iter().zip(SHARED) {
        for shape in layer {
            let points: Vec<String> =
                shape.iter().map(|p| frame.at(*p)).map(|[x, y]| format!("{x:.1},{y:.1}")).collect();
            let [x, y] = frame.at(shape[0]);
            let _ = match shape.len() {
                3 => writeln!(
                    out,
                    r##"<polygon points="{}" fill="{colour}" fill-opacity="0.35" stroke="{colour}" stroke-width="1.2"/>"##,
                    points.join(" ")
                ),
                2 => writeln!(out, r##"<polyline points="{}" stroke="{colour}" stroke-width="2"/>"##, points.join(" ")),
                n => writeln!(
                    out,
                    r##"<circle cx="{x:.1}" cy="{y:.1}" r="{}" fill="{colour}" stroke="#fff"/>"##,
                    if n == 1 { 3 } else { 6 }
                ),
            };
        }
    }
    for (k, ((layer, colour), word)) in (1..).zip(layers.iter().zip(SHARED).zip(words)) {
        let y = frame.high + LINE * k as f32;
        let _ = writeln!(
            out,
            r##"<rect x="0" y="{:.0}" width="14" height="14" rx="3" fill="{colour}"/><text x="22" y="{y:.0}" font-size="14" fill="#222">{word}: {}</text>"##,
            y - 12.0,
            layer.len()
        );
    }
    out + "</g>\n</svg>\n"
}

/// What happened, in words.
///
/// ```
/// use cutting_bench::{tell, Event};
/// assert_eq!(tell(&Event::Split { copy: 4, source: 0 }), "particle 0 was split; 4 is the copy");
/// ```
pub fn tell(event: &Event) -> String {
    match event {
        Event::Split { copy, source } => format!("particle {source} was split; {copy} is the copy"),
        Event::Removed { a, b } => format!("the edge from {a} to {b} went"),
        Event::Inserted { a, b, p, q, .. } => {
            format!("the strap from {a} to {b} was cut through; {p} and {q} are the new ends")
        }
        Event::Opened { a, b } => format!("the torn edge from {a} to {b} opened"),
        Event::Crossed { a, b, at: [x, y], .. } => format!("the blade crosses from {a} to {b} at ({x}, {y})"),
    }
}
