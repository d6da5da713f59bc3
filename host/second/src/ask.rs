//! The ask language: one line is one call, one line is its answer.

use crate::aspt;
use crate::buffers::{self, Buffers};
use crate::composite;
use crate::flash::{self, Entry, Part, View};
use crate::guids;
use crate::lines::{bad, number, quoted, shown, without_line_end, BadLine, Words};
use crate::mailbox::{Firmware, Mailbox};
use crate::refusal::Refusal;
use std::io::{self, BufRead, ErrorKind, Write};

/// The answer to a call, or why the line is none.
type Answer = Result<String, BadLine>;

/// What stands between one line and the next: the buffers and the one mailbox.
pub struct Ask {
    buffers: Buffers,
    mailbox: Mailbox,
}

/// What stopped a conversation before the last line.
#[derive(Debug)]
pub enum Failure {
    Reading(io::Error),
    Writing(io::Error),
}

/// Answers every line of the input, each before the next is read. Gives whether any was bad. Where
/// nobody listens any more, the conversation is at its end.
pub fn converse(mut input: impl BufRead, mut output: impl Write) -> Result<bool, Failure> {
    let mut ask = Ask::new();
    let mut any_bad = false;
    let mut line = Vec::new();
    loop {
        line.clear();
        if input
            .read_until(b'\n', &mut line)
            .map_err(Failure::Reading)?
            == 0
        {
            return Ok(any_bad);
        }
        let answer = match ask.answer(without_line_end(&line)) {
            None => continue,
            Some(Ok(answer)) => answer,
            Some(Err(BadLine(reason))) => {
                any_bad = true;
                format!("bad line: {}", reason)
            }
        };
        match write_line(&mut output, answer) {
            Ok(()) => {}
            Err(error) if error.kind() == ErrorKind::BrokenPipe => return Ok(any_bad),
            Err(error) => return Err(Failure::Writing(error)),
        }
    }
}

/// One answer, its line end, and out with it.
fn write_line(output: &mut impl Write, mut answer: String) -> io::Result<()> {
    answer.push('\n');
    output.write_all(answer.as_bytes())?;
    output.flush()
}

/// The answer of a call that may be refused: a refusal is an answer too.
fn told<T>(result: Result<T, Refusal>, accepted: impl FnOnce(T) -> String) -> Answer {
    Ok(match result {
        Ok(value) => accepted(value),
        Err(refusal) => refused(refusal),
    })
}

fn refused(refusal: Refusal) -> String {
    let mut answer = format!("refused {}", refusal.number);
    if let Some(tested) = refusal.tested {
        answer.push_str(&format!(" tested={}", tested));
    }
    if let Some(place) = refusal.place {
        answer.push_str(&format!(" level={}", place.level));
        if let Some(index) = place.index {
            answer.push_str(&format!(" index={}", index));
        }
    }
    answer
}

fn ok<T>(_: T) -> String {
    "ok".to_string()
}

fn ok_length(length: usize) -> String {
    format!("ok length={}", length)
}

fn ok_entry(entry: Entry) -> String {
    format!(
        "ok type={:#x} sub={:#x} size={:#x} location={:#x} mode={}",
        entry.kind, entry.subprogram, entry.size, entry.location, entry.mode
    )
}

fn ok_part(part: Part) -> String {
    format!("ok place={:#x} length={}", part.place, part.length)
}

fn yes_or_no(acted: bool) -> String {
    if acted { "yes" } else { "no" }.to_string()
}

impl Default for Ask {
    fn default() -> Ask {
        Ask::new()
    }
}

impl Ask {
    /// No buffers, and a fresh mailbox.
    pub fn new() -> Ask {
        Ask {
            buffers: Buffers::default(),
            mailbox: Mailbox::fresh(),
        }
    }

    /// The answer to a line without its line end; none where nothing but a comment stands in it.
    pub fn answer(&mut self, line: &[u8]) -> Option<Answer> {
        let mut words = Words::of(line);
        let call = words.next_if_any()?;
        Some(self.call(call, words))
    }

    /// Each call reads all of its words before it changes anything.
    fn call(&mut self, call: &[u8], words: Words) -> Answer {
        match call {
            b"buffer" => self.buffer(words),
            b"file" => self.file(words),
            b"copy" => self.copy(words),
            b"patch" => self.patch(words),
            b"show" => self.show(words),
            b"digest" => self.digest(words),
            b"directory" => self.directory(words),
            b"entry" => self.entry(words),
            b"bytes" => self.bytes(words),
            b"find" => self.find(words),
            b"find-image" => self.find_image(words),
            b"view" => self.view(words),
            b"view-entry" => self.view_entry(words),
            b"view-bytes" => self.view_bytes(words),
            b"start" => self.start(words),
            b"extend" => self.extend(words),
            b"aspt-read" => self.aspt_read(words),
            b"aspt-write" => self.aspt_write(words),
            b"guids" => self.guids(words),
            b"guid-find" => self.guid_find(words),
            b"guid-start" => self.guid_start(words),
            b"guid-extend" => self.guid_extend(words),
            b"mailbox" => self.fresh_mailbox(words),
            b"mailbox-of" => self.mailbox_of(words),
            b"post" => self.post(words),
            b"load" => self.load(words),
            b"turn" => self.turn(words),
            b"unload" => self.unload(words),
            b"take" => self.take(words),
            b"firmware" => self.firmware(words),
            _ => bad(format!("there is no call {}", quoted(call))),
        }
    }
}

/// Buffers.
impl Ask {
    fn buffer(&mut self, mut words: Words) -> Answer {
        let name = words.name("NAME")?;
        let length = words.number("LENGTH")?;
        let byte = match words.next_if_any() {
            Some(word) => number(word, "BYTE")?,
            None => 0,
        };
        words.end()?;
        self.buffers.make(name, length, byte).map(ok_length)
    }

    fn file(&mut self, mut words: Words) -> Answer {
        let name = words.name("NAME")?;
        let path = words.word("PATH")?;
        words.end()?;
        self.buffers.read_file(name, path).map(ok_length)
    }

    fn copy(&mut self, mut words: Words) -> Answer {
        let name = words.name("NAME")?;
        let from = words.name("FROM")?;
        words.end()?;
        self.buffers.copy(name, from).map(ok_length)
    }

    fn patch(&mut self, mut words: Words) -> Answer {
        let name = words.name("NAME")?;
        let offset = words.number("OFFSET")?;
        let bytes = words.hex("HEX")?;
        words.end()?;
        self.buffers.patch(name, offset, &bytes).map(ok)
    }

    fn show(&self, mut words: Words) -> Answer {
        let name = words.name("NAME")?;
        let offset = words.number("OFFSET")?;
        let length = words.number("LENGTH")?;
        words.end()?;
        let part = self.buffers.part(name, offset, length)?;
        Ok(format!("bytes {}", shown(part)))
    }

    fn digest(&self, mut words: Words) -> Answer {
        let bytes = self.lent(&mut words)?;
        words.end()?;
        let digest = buffers::digest(bytes);
        Ok(format!(
            "digest length={} fnv=0x{:016x}",
            bytes.len(),
            digest
        ))
    }

    /// The buffer that the next word names, to be read.
    fn lent(&self, words: &mut Words) -> Result<&[u8], BadLine> {
        self.buffers.lent(words.name("NAME")?)
    }

    /// The buffer that the next word names, to be written.
    fn lent_to_write(&mut self, words: &mut Words) -> Result<&mut [u8], BadLine> {
        self.buffers.lent_to_write(words.name("NAME")?)
    }
}

/// Flash image.
impl Ask {
    fn directory(&self, mut words: Words) -> Answer {
        let image = self.lent(&mut words)?;
        let level = words.number("LEVEL")?;
        words.end()?;
        told(flash::directory(image, level), |d| {
            let level = d.level.number();
            format!("ok place={:#x} level={} total={}", d.place, level, d.total)
        })
    }

    fn entry(&self, mut words: Words) -> Answer {
        let image = self.lent(&mut words)?;
        let level = words.number("LEVEL")?;
        let index = words.number("INDEX")?;
        words.end()?;
        told(flash::entry(image, level, index), ok_entry)
    }

    fn bytes(&self, mut words: Words) -> Answer {
        let image = self.lent(&mut words)?;
        let level = words.number("LEVEL")?;
        let index = words.number("INDEX")?;
        words.end()?;
        told(flash::bytes(image, level, index), ok_part)
    }

    fn find(&self, mut words: Words) -> Answer {
        let image = self.lent(&mut words)?;
        let level = words.number("LEVEL")?;
        let kind = words.number("TYPE")?;
        let subprogram = words.number("SUB")?;
        words.end()?;
        told(flash::find(image, level, kind, subprogram), |f| {
            format!("ok index={} tested={}", f.index, f.tested)
        })
    }

    fn find_image(&self, mut words: Words) -> Answer {
        let image = self.lent(&mut words)?;
        let kind = words.number("TYPE")?;
        let subprogram = words.number("SUB")?;
        words.end()?;
        told(flash::find_image(image, kind, subprogram), |f| {
            let level = f.level.number();
            format!(
                "ok place={:#x} level={} index={} tested={}",
                f.place, level, f.index, f.tested
            )
        })
    }

    fn view(&self, mut words: Words) -> Answer {
        let image = self.lent(&mut words)?;
        let level = words.number("LEVEL")?;
        words.end()?;
        told(View::of(image, level), |view| {
            format!("ok place={:#x}", view.place)
        })
    }

    fn view_entry(&self, mut words: Words) -> Answer {
        let image = self.lent(&mut words)?;
        let place = words.number("PLACE")?;
        let index = words.number("INDEX")?;
        words.end()?;
        told(View { image, place }.entry(index), ok_entry)
    }

    fn view_bytes(&self, mut words: Words) -> Answer {
        let image = self.lent(&mut words)?;
        let place = words.number("PLACE")?;
        let index = words.number("INDEX")?;
        words.end()?;
        told(View { image, place }.bytes(index), ok_part)
    }

    fn start(&mut self, mut words: Words) -> Answer {
        let buffer = self.lent_to_write(&mut words)?;
        let level = words.number("LEVEL")?;
        words.end()?;
        told(flash::start(buffer, level), ok)
    }

    fn extend(&mut self, mut words: Words) -> Answer {
        let buffer = self.lent_to_write(&mut words)?;
        let entry = Entry {
            kind: words.number("TYPE")?,
            subprogram: words.number("SUB")?,
            size: words.number("SIZE")?,
            location: words.number("LOCATION")?,
            mode: words.number("MODE")?,
        };
        words.end()?;
        told(flash::extend(buffer, &entry), |total| {
            format!("ok total={}", total)
        })
    }
}

/// ASPT.
impl Ask {
    fn aspt_read(&self, mut words: Words) -> Answer {
        let lent = self.lent(&mut words)?;
        words.end()?;
        told(aspt::read(lent), |t| {
            let [s, s2, s3] = t.structures.map(|s| composite::shown_structure(&s));
            [
                format!("ok oem={} table={}", shown(&t.oem), shown(&t.table)),
                format!("oem-revision={:#x}", t.oem_revision),
                format!("creator={:#x}", t.creator),
                format!("creator-revision={:#x}", t.creator_revision),
                format!("base={:#x} pages={:#x}", t.base, t.pages),
                format!("{} {} {}", s, s2, s3),
            ]
            .join(" ")
        })
    }

    fn aspt_write(&mut self, mut words: Words) -> Answer {
        let buffer = self.lent_to_write(&mut words)?;
        let table = aspt::Table {
            oem: words.hex_of("OEM")?,
            table: words.hex_of("TABLE")?,
            oem_revision: words.number("OEMREVISION")?,
            creator: words.number("CREATOR")?,
            creator_revision: words.number("CREATORREVISION")?,
            base: words.number("BASE")?,
            pages: words.number("PAGES")?,
            structures: [
                composite::structure(words.word("the first structure")?)?,
                composite::structure(words.word("the second structure")?)?,
                composite::structure(words.word("the third structure")?)?,
            ],
        };
        words.end()?;
        told(aspt::write(buffer, &table), ok)
    }
}

/// GUID table.
impl Ask {
    fn guids(&self, mut words: Words) -> Answer {
        let image = self.lent(&mut words)?;
        words.end()?;
        told(guids::read(image), |t| {
            format!("ok total={} entries={}", t.total, t.entries)
        })
    }

    fn guid_find(&self, mut words: Words) -> Answer {
        let image = self.lent(&mut words)?;
        let guid = words.guid()?;
        words.end()?;
        told(guids::find(image, &guid), |f| {
            format!(
                "ok place={:#x} length={} tested={}",
                f.place, f.length, f.tested
            )
        })
    }

    fn guid_start(&mut self, mut words: Words) -> Answer {
        let image = self.lent_to_write(&mut words)?;
        words.end()?;
        told(guids::start(image), ok)
    }

    fn guid_extend(&mut self, mut words: Words) -> Answer {
        let image = self.lent_to_write(&mut words)?;
        let guid = words.guid()?;
        let data = words.hex("HEX")?;
        words.end()?;
        told(guids::extend(image, &guid, &data), |total| {
            format!("ok total={}", total)
        })
    }
}

/// Mailbox.
impl Ask {
    fn fresh_mailbox(&mut self, mut words: Words) -> Answer {
        words.end()?;
        self.mailbox = Mailbox::fresh();
        Ok(ok(()))
    }

    fn mailbox_of(&mut self, mut words: Words) -> Answer {
        let line = composite::line(words.word("LINE")?)?;
        let register = composite::register(words.word("REGISTER")?)?;
        let ready = composite::places(words.word("PLACES")?)?;
        words.end()?;
        self.mailbox = Mailbox::of(line, register, ready);
        Ok(ok(()))
    }

    fn post(&mut self, mut words: Words) -> Answer {
        let caller = words.number("CALLER")?;
        let command = words.number("COMMAND")?;
        let data = words.number("DATA")?;
        words.end()?;
        told(self.mailbox.post(caller, command, data), ok)
    }

    fn load(&mut self, mut words: Words) -> Answer {
        words.end()?;
        told(self.mailbox.load(), yes_or_no)
    }

    fn turn(&mut self, mut words: Words) -> Answer {
        words.end()?;
        told(self.mailbox.turn(), yes_or_no)
    }

    fn unload(&mut self, mut words: Words) -> Answer {
        words.end()?;
        told(self.mailbox.unload(), yes_or_no)
    }

    fn take(&mut self, mut words: Words) -> Answer {
        let caller = words.number("CALLER")?;
        words.end()?;
        told(self.mailbox.take(caller), |word| {
            format!("ok word=0x{:08x}", word)
        })
    }

    fn firmware(&self, mut words: Words) -> Answer {
        words.end()?;
        Ok(shown_firmware(&self.mailbox.firmware))
    }
}

/// The firmware's state: IDs rising, `-` for what there is none of.
fn shown_firmware(firmware: &Firmware) -> String {
    let interface = if firmware.interface_on { "on" } else { "off" };
    let held = firmware.held.map(|part| match part {
        Some(part) => format!("{:#x}", part),
        None => "-".to_string(),
    });
    let mut saved = Vec::new();
    for (id, descriptor) in firmware.saved.iter().enumerate() {
        if let Some([part_1, part_2, part_3]) = descriptor {
            saved.push(format!("{}:{:#x}:{:#x}:{:#x}", id, part_1, part_2, part_3));
        }
    }
    let mut delivery = Vec::new();
    for (id, on) in firmware.delivery.iter().enumerate() {
        if *on {
            delivery.push(id.to_string());
        }
    }
    format!(
        "ok interface={} held={} saved={} delivery={}",
        interface,
        held.join(","),
        joined_or_none(saved),
        joined_or_none(delivery)
    )
}

fn joined_or_none(shown: Vec<String>) -> String {
    if shown.is_empty() {
        "-".to_string()
    } else {
        shown.join(",")
    }
}

#[cfg(test)]
mod tests;
