//! Formats an image, writes four records, commits, mounts it again, reads and searches.

use muitalvek::{Found, Refusal, Volume};

fn run() -> Result<(), Refusal> {
    let (mut image, mut map) = (vec![0xff; 256 * 8], vec![0; 8]);

    let mut v = Volume::format(&mut image, &mut map, 1)?;
    println!("formatted: {} of 8 pages free", v.free_pages());
    v.open(3)?;
    v.write(b"a zone cut ")?;
    v.record_end()?;
    v.write(b"at the antimeridian")?;
    v.record_end()?;
    v.write(&[0; 224])?;
    v.record_end()?;
    v.write(b"its other half")?;
    v.record_end()?;
    v.finish()?;
    v.flags(3, 1)?;
    v.commit()?;
    println!("committed");

    // as after a restart: only the image is kept
    let mut v = Volume::mount(&mut image, &mut map, 1)?;
    let f = v.file(3)?;
    println!("mounted: file 3 first {} last {} flags {}", f.first_seq, f.last_seq, f.flags);
    let mut out = [0; 30];
    let end = v.read(3, 0, &mut out)?;
    println!("read up to {end}: {}", String::from_utf8_lossy(&out));
    match v.read(3, f.last_seq, &mut out) {
        Err(why) => println!("read at the end: refused {}: {why}", why.number()),
        Ok(_) => println!("read at the end: it should be refused"),
    }
    let mut found = v.search(3)?;
    while let Found::Offer(seq) = found {
        println!("search offers {seq}: right");
        found = v.right()?;
    }
    println!("search: {found:?}");
    match v.left() {
        Err(why) => println!("left: refused {}: {why}", why.number()),
        Ok(_) => println!("left: it should be refused"),
    }
    v.truncate(3, 11)?;
    v.commit()?;
    println!("truncated: {}", v.seek(3, 0)?);
    Ok(())
}

fn main() {
    if let Err(why) = run() {
        eprintln!("refused {}: {why}", why.number());
        std::process::exit(1);
    }
}
