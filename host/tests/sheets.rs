//! Every sheet of examples/: its listing, its text, and what it means.
use cutting_bench::{Edition, Event, Refusal, Sheet, SheetParticle, TextError, Torn, draw_cut};
use std::fs;
use std::path::PathBuf;

fn examples() -> PathBuf {
    PathBuf::from(concat!(env!("CARGO_MANIFEST_DIR"), "/../examples"))
}
fn names() -> Vec<String> {
    let mut all: Vec<String> = fs::read_dir(examples())
        .unwrap()
        .filter_map(|entry| entry.unwrap().file_name().to_str()?.strip_suffix(".sheet").map(str::to_string))
        .collect();
    all.sort();
    all
}
fn bytes(name: &str) -> Vec<u8> {
    fs::read(examples().join(format!("{name}.sheet"))).unwrap()
}
fn beside(name: &str, ending: &str) -> String {
    fs::read_to_string(examples().join(format!("{name}.{ending}"))).unwrap()
}

/// Whether the bytes are of the second edition, which begins with eleven ones.
fn second(bytes: &[u8]) -> bool {
    matches!(bytes, [255, b, ..] if b >> 5 == 7)
}

/// The sides of a boundary, whatever their order and direction.
fn sides(sheet: &Sheet) -> Vec<[u32; 2]> {
    let mut sides: Vec<[u32; 2]> = sheet.boundary.iter().map(|&[a, b]| [a.min(b), a.max(b)]).collect();
    sides.sort();
    sides
}

/// A sheet that is read has its text beside it, and the text gives its bytes; of one that is refused the text says so in its first line. Only the boundary may
/// differ: it is not typed in the second edition, and not read as it was typed where it is no outline.
#[test]
fn every_text() {
    let (mut refused, mut seconds, mut replaced) = (0, 0, 0);
    assert!(names().len() >= 12);
    for name in names() {
        let (text, bytes) = (beside(&name, "text"), bytes(&name));
        let sheet = match Sheet::read(&bytes) {
            Ok(sheet) => sheet,
            Err(why) => {
                assert!(text.starts_with(&format!("# refused {}: ", why.number())), "{name}");
                refused += 1;
                continue;
            }
        };
        let typed: Sheet = text.parse().unwrap();
        match second(&bytes) {
            true => assert_eq!((typed.write().as_ref(), typed.boundary.len()), (Ok(&bytes), 0), "{name}"),
            false => assert_eq!(typed.write_first().as_ref(), Ok(&bytes), "{name}"),
        }
        assert_eq!(sheet.replaced, !second(&bytes) && typed.boundary != sheet.boundary, "{name}");
        let as_read = Sheet { boundary: sheet.boundary.clone(), replaced: sheet.replaced, ..typed };
        assert_eq!(as_read, sheet, "{name}");
        // Written, it is read with the same outline, in the bench's order; and its own text is that of the sheet as it was read.
        let again = Sheet::read(&sheet.write().unwrap()).unwrap();
        assert_eq!(sides(&again), sides(&sheet), "{name}");
        assert_eq!(
            Sheet { boundary: vec![], ..again },
            Sheet { boundary: vec![], replaced: false, ..sheet.clone() },
            "{name}"
        );
        assert_eq!(sheet.to_string().parse(), Ok(Sheet { replaced: false, ..sheet.clone() }), "{name}");
        assert_eq!(sheet.to_string().starts_with("# outline replaced"), sheet.replaced, "{name}");
        seconds += usize::from(second(&bytes));
        replaced += usize::from(sheet.replaced);
    }
    assert_eq!((refused, seconds, replaced), (3, 2, 3));
}

/// A typed outline stays in its order, direction and repeats where it is the outline of the mesh; a sheet's mesh has it too.
#[test]
fn a_typed_outline() {
    let worked = Sheet::read(&bytes("worked")).unwrap();
    let read = |boundary: &[[u32; 2]]| {
        let typed = Sheet { boundary: boundary.to_vec(), ..worked.clone() };
        let sheet = Sheet::read(&typed.write_first()?)?;
        assert_eq!(typed.mesh()?.boundary, sheet.boundary);
        Ok((sheet.boundary, sheet.replaced))
    };
    let own = vec![[0, 1], [1, 2], [2, 3], [3, 0]];
    let turned = vec![[3, 0], [2, 1], [0, 1], [2, 3], [1, 0]];
    assert_eq!(read(&turned), Ok((turned, false)));
    assert_eq!(read(&own[..3]), Ok((own.clone(), true)));
    assert_eq!(read(&[own.clone(), vec![[0, 2]]].concat()), Ok((own.clone(), true)));
    assert_eq!(read(&[]), Ok((own, true)));
    assert_eq!(read(&[[0, 4]]), Err(Refusal::BadIndex));
}

/// The listing of a cut (docs/RULES.md, R14.3 and R19), of what the bench gave.
fn listing(torn: &Torn, replaced: bool) -> String {
    let mut lines = vec!["tear 1".to_string()];
    if replaced {
        lines.push("outline replaced".to_string());
    }
    let told = |e: &Event| match e {
        Event::Crossed { .. } => unreachable!("crossings are not listed"),
        Event::Split { copy, source } => (0, format!("split {copy} {source}")),
        Event::Removed { a, b } => (1, format!("edge {a} {b}")),
        Event::Inserted { a, b, p, q, .. } => (2, format!("insert {a} {b} {p} {q}")),
        Event::Opened { .. } => unreachable!("no cut opens a torn edge"),
    };
    let mut entries: Vec<(i32, String)> = torn.events.iter().filter(|e| !e.is_mark()).map(told).collect();
    entries.sort_by_key(|(kind, _)| *kind);
    lines.extend(entries.into_iter().map(|(_, line)| line));
    lines.push(format!("particles {}", torn.mesh.particles.len()));
    lines.push(format!("pieces {}", torn.mesh.pieces().unwrap()));
    lines.join("\n") + "\n"
}

/// Every example: what the program prints is the refusal, or the listing of the cut that the crate gives.
#[test]
fn every_listing() {
    for name in names() {
        let expected = match Sheet::read(&bytes(&name)) {
            Err(why) => format!("refused {}\n", why.number()),
            // The program takes 128 particles, the crate 1,024.
            Ok(sheet) if sheet.particles.len() > 128 => "refused 1\n".to_string(),
            Ok(sheet) => listing(
                &sheet.mesh().unwrap().cut(sheet.blade.map(|x| x as f32), Edition::First, 0.1).unwrap(),
                sheet.replaced,
            ),
        };
        assert_eq!(expected, beside(&name, "txt"), "{name}");
        assert_eq!(Sheet::list(&bytes(&name)), expected, "{name}");
    }
}

#[test]
fn a_writer_refuses() {
    let worked = Sheet::read(&bytes("worked")).unwrap();
    let spoil: [(fn(&mut Sheet), _, _); 8] = [
        (|s| s.particles[0].x = 1024, Err(Refusal::BadNumber), Err(Refusal::BadNumber)),
        (|s| s.blade[3] = -1025, Err(Refusal::BadNumber), Err(Refusal::BadNumber)),
        (|s| s.triangles[0] = [0, 1, 9], Err(Refusal::BadIndex), Err(Refusal::BadIndex)),
        (|s| s.triangles[0] = [0, 1, 1024], Err(Refusal::BadNumber), Err(Refusal::BadNumber)),
        (|s| s.particles = vec![s.particles[0]; 1025], Err(Refusal::BadCount), Err(Refusal::BadCount)),
        (|s| s.particles[0].x = -1024, Ok(36), Ok(46)),
        // A boundary is not written in the second edition.
        (|s| s.boundary[0] = [2, 2], Ok(36), Err(Refusal::BadIndex)),
        (|s| s.boundary = vec![[0, 1]; 2049], Ok(36), Err(Refusal::BadCount)),
    ];
    for (k, (spoil, second, first)) in spoil.into_iter().enumerate() {
        let mut s = worked.clone();
        spoil(&mut s);
        assert_eq!(s.write().map(|bytes| bytes.len()), second, "{k}");
        assert_eq!(s.write_first().map(|bytes| bytes.len()), first, "{k}");
    }
}

/// Triangles with so many sides in their outline, no two of them sharing one (and some sharing one each).
fn rim(sides: u32) -> Sheet {
    let n = 1024;
    let ring = (0..sides / 3).map(|i| [i, i + 1, i + 3]);
    let over = (0..sides % 3).map(|k| [6 * k, 6 * k + 1, 6 * k + n / 2]);
    Sheet {
        particles: (0..n as i32).map(|k| SheetParticle { x: k % 32, y: k / 32, pinned: false }).collect(),
        triangles: ring.chain(over).collect(),
        ..Sheet::default()
    }
}
/// An outline of 2,048 sides is taken, one of 2,049 refused with 1, and with a name that is none 3 comes first.
#[test]
fn the_longest_outline() {
    let full = Sheet::read(&rim(2048).write().unwrap()).unwrap();
    assert_eq!((full.boundary.len(), full.replaced), (2048, false));
    assert_eq!(full.write_first().map(|bytes| Sheet::read(&bytes).unwrap().replaced), Ok(false));
    assert_eq!(rim(2049).write(), Err(Refusal::BadCount));
    assert_eq!(rim(2049).write_first(), Err(Refusal::BadCount));
    let mut both = rim(2049);
    both.edges.push(Default::default());
    assert_eq!(both.write(), Err(Refusal::BadIndex));
    assert_eq!(both.write_first(), Err(Refusal::BadIndex));
}

#[test]
fn text_that_is_no_sheet_names_its_line() {
    let line = |text: &str| text.parse::<Sheet>().map_err(|TextError { line, .. }| line);
    assert_eq!(line("particle 0 0\npartikel 1 1\nblade 0 0 1 1"), Err(2));
    assert_eq!(line("# none\n\nparticle 0 1024\nblade 0 0 1 1"), Err(3));
    assert_eq!(line("edge 0\nblade 0 0 1 1"), Err(1));
    assert_eq!(line("particle 0 0"), Err(0));
    assert_eq!(line("blade 0 0 1 1\nblade 0 0 1 1"), Err(0));
    assert_eq!(line("blade 0 0 1 x"), Err(1));
}

#[test]
fn what_is_misnamed_is_told() {
    let told = |text: &str| text.parse::<Sheet>().unwrap().misnamed().unwrap();
    assert!(
        told(&beside("absent", "text")).starts_with("edge 1 (line 2 of the edges) is 1 4, but there are 4 particles")
    );
    assert!(told("particle 0 0\nboundary 0 0\nblade 0 0 1 1").contains("names one particle twice"));
    assert_eq!(Sheet::read(&bytes("grid")).unwrap().misnamed(), None);
}

/// The pictures of docs/ are those that the tool draws.
#[test]
fn the_pictures_of_the_docs() {
    for (name, picture) in [("grid", "cut-of-foam"), ("rope", "cut-of-webbing")] {
        let sheet = Sheet::read(&bytes(name)).unwrap();
        let (mesh, blade) = (sheet.mesh().unwrap(), sheet.blade.map(|x| x as f32));
        let drawn = draw_cut(&mesh, blade, &mesh.cut(blade, Edition::First, 0.1).unwrap()).unwrap();
        let kept = fs::read_to_string(examples().join(format!("../docs/{picture}.svg"))).unwrap();
        assert!(drawn == kept, "host/run sheet cut examples/{name}.sheet --draw > docs/{picture}.svg makes it anew");
    }
}
