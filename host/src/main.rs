//! The trainer's tool: sheets as text, as pictures, cut and explained. `host/run sheet` lists what it does.
use cutting_bench::{Edition, Event, Refusal, Sheet, draw_cut, draw_difference, draw_mesh, tell};
use std::error::Error;
use std::fs;
use std::io::{self, Write};
use std::process::ExitCode;

const USAGE: &str = "\
host/run sheet text FILE             a sheet as lines that one can read
host/run sheet write TEXT > FILE     the sheet of such lines; its boundary lines are left out, as the bench finds the outline
host/run sheet write --first TEXT    the same in the first edition, with its boundary lines (for tests)
host/run sheet draw FILE > x.svg     a picture: pieces coloured, pins black, the blade red
host/run sheet cut FILE              the cut told in words: where the blade goes, what happened, the pieces and their masses
host/run sheet cut FILE --draw       before and after, beside each other, as a picture (> x.svg), with a dot at each crossing
host/run sheet cut FILE --second     the same, with or without --draw, by the second edition of the cut: exact, so a blade cuts alike from either end
host/run sheet list FILE             the listing that the program cutlist prints
host/run sheet diff FILE FILE        the differences of two sheets, as the program sheetdiff prints them
host/run sheet diff FILE FILE --draw both meshes in one picture, what only one has in colour (> x.svg)
host/run sheet mend FILE             what a broken sheet loses when it is mended, in words, with each row
host/run sheet explain N             what the line `refused N` means
FILE is a sheet, or its text if its name ends in .text. A cut cuts straps no nearer to an end than a tenth of them.
";
/// The insertion fraction of the program cutlist.
const FRACTION: f32 = 0.1;

type Outcome = Result<Vec<u8>, Box<dyn Error>>;

/// The sheet of a file, or of its text.
fn open(file: &str) -> Result<Sheet, Box<dyn Error>> {
    let bytes = fs::read(file).map_err(|why| format!("{file}: {why}"))?;
    match file.ends_with(".text") {
        true => Ok(String::from_utf8(bytes)?.parse()?),
        false => Ok(Sheet::read(&bytes)?),
    }
}

/// What a broken sheet loses when it is mended.
fn tell_mend(file: &str) -> Result<String, Box<dyn Error>> {
    let bytes = fs::read(file).map_err(|why| format!("{file}: {why}"))?;
    let mended = Sheet::mend(&bytes)?;
    let mut out: Vec<String> = mended.dropped.iter().map(ToString::to_string).collect();
    if out.is_empty() {
        out.push("nothing goes".to_string());
    }
    Ok(out.join("\n") + "\n")
}

/// The cut of a sheet in words.
fn tell_cut(sheet: &Sheet, edition: Edition) -> Result<String, Refusal> {
    let torn = sheet.mesh()?.cut(sheet.blade.map(|x| x as f32), edition, FRACTION)?;
    let mut out: Vec<String> = torn.events.iter().map(tell).collect();
    if sheet.replaced {
        out.insert(0, "the typed outline is not that of the mesh, and was replaced".to_string());
    }
    if torn.events.iter().all(Event::is_mark) {
        out.push("nothing was cut".to_string());
    }
    let pieces = torn.mesh.list_pieces()?;
    let pieces_word = if pieces.len() == 1 { "piece" } else { "pieces" };
    out.push(format!("{} particles, {} {pieces_word}", torn.mesh.particles.len(), pieces.len()));
    let (element, measure) = if torn.mesh.triangles.is_empty() { ("strap", "length") } else { ("triangle", "area") };
    for (k, p) in (1..).zip(&pieces) {
        let plural = if p.elements.len() == 1 { "" } else { "s" };
        out.push(format!(
            "piece {k}: {} {element}{plural}, {measure} {}, mass {}",
            p.elements.len(),
            p.measure,
            p.mass
        ));
    }
    Ok(out.join("\n") + "\n")
}

/// A refusal in words.
fn explain(number: &str) -> Result<String, Box<dyn Error>> {
    match number.parse().map(Refusal::of) {
        Ok(Some(Refusal::Other(n))) => Err(format!("no refusal has the number {n}: they go from 1 to 12").into()),
        Ok(Some(why)) => Ok(format!("refused {number}: {why}.\n{}\n", why.advice())),
        Ok(None) => Ok("0: accepted.\n".to_string()),
        Err(_) => Err(format!("{number} is no number").into()),
    }
}

fn sheet(words: &[&str]) -> Option<Outcome> {
    let draw = |file: &str| -> Outcome {
        let s = open(file)?;
        Ok(draw_mesh(&s.mesh()?, s.blade.map(|x| x as f32))?.into_bytes())
    };
    let draw_both = |file: &str, edition: Edition| -> Outcome {
        let s = open(file)?;
        let (mesh, blade) = (s.mesh()?, s.blade.map(|x| x as f32));
        Ok(draw_cut(&mesh, blade, &mesh.cut(blade, edition, FRACTION)?)?.into_bytes())
    };
    let write = |file: &str, first: bool| -> Outcome {
        let text = fs::read_to_string(file).map_err(|why| format!("{file}: {why}"))?;
        let sheet: Sheet = text.parse()?;
        let bytes = if first { sheet.write_first() } else { sheet.write() };
        if !first && !sheet.boundary.is_empty() && sheet.mesh().is_ok_and(|mesh| mesh.boundary != sheet.boundary) {
            eprintln!("{file}: its boundary lines are not the outline of the mesh; the sheet is read with the outline");
        }
        bytes.map_err(|why| match sheet.misnamed() {
            Some(what) if why == Refusal::BadIndex => format!("refused {}: {what}", why.number()).into(),
            _ => why.into(),
        })
    };
    let bytes = |file: &str| -> Outcome {
        match file.ends_with(".text") {
            true => Ok(open(file)?.write()?),
            false => fs::read(file).map_err(|why| format!("{file}: {why}").into()),
        }
    };
    let diff = |a: &str, b: &str| -> Outcome { Ok(Sheet::difference(&bytes(a)?, &bytes(b)?).into_bytes()) };
    let draw_diff = |a: &str, b: &str| -> Outcome {
        let (a, b) = (open(a)?, open(b)?);
        Ok(draw_difference(&a.mesh()?, &b.mesh()?).into_bytes())
    };
    Some(match words {
        ["text", file] => open(file).map(|s| s.to_string().into_bytes()),
        ["write", "--first", file] | ["write", file, "--first"] => write(file, true),
        ["write", file] => write(file, false),
        ["draw", file] => draw(file),
        ["cut", rest @ ..] => {
            let (flags, files): (Vec<&str>, Vec<&str>) =
                rest.iter().partition(|word| ["--draw", "--second"].contains(word));
            let [file] = files[..] else { return None };
            let edition = if flags.contains(&"--second") { Edition::Second } else { Edition::First };
            match flags.contains(&"--draw") {
                true => draw_both(file, edition),
                false => open(file).and_then(|s| Ok(tell_cut(&s, edition)?.into_bytes())),
            }
        }
        ["list", file] => fs::read(file).map(|bytes| Sheet::list(&bytes).into_bytes()).map_err(|why| why.into()),
        ["diff", a, b, "--draw"] | ["diff", "--draw", a, b] => draw_diff(a, b),
        ["diff", a, b] => diff(a, b),
        ["mend", file] => tell_mend(file).map(String::into_bytes),
        ["explain", number] => explain(number).map(String::into_bytes),
        _ => return None,
    })
}

fn main() -> ExitCode {
    let words: Vec<String> = std::env::args().skip(1).collect();
    let words: Vec<&str> = words.iter().map(String::as_str).collect();
    let Some(outcome) = words.split_first().filter(|(first, _)| **first == "sheet").and_then(|(_, rest)| sheet(rest))
    else {
        eprint!("{USAGE}");
        return ExitCode::from(2);
    };
    match outcome {
        Ok(bytes) => match io::stdout().write_all(&bytes) {
            Ok(()) => ExitCode::SUCCESS,
            Err(_) => ExitCode::from(1),
        },
        Err(why) => {
            match why.downcast_ref::<Refusal>() {
                Some(refusal) => eprintln!("refused {}: {refusal}.\n{}", refusal.number(), refusal.advice()),
                None => eprintln!("{why}"),
            }
            ExitCode::from(1)
        }
    }
}
