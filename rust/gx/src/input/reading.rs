//! The bytes of a file as an input, a list of pairs, a dictionary or a list of services.

use std::path::Path;

use super::{
    accepted, accepted_dictionary, accepted_list, accepted_record, accepted_services, all_mistaken,
    bytes_of, mistaken, named, text_of, title, unstored, Form, Input,
};
use crate::blocks;
use crate::delivered::Delivered;
use crate::dictionary::{self, Dictionary, Naming, Part};
use crate::entry::Sort;
use crate::library::{self, Under};
use crate::names::Names;
use crate::pairs::{self, List};
use crate::services::Services;
use crate::stored;
use crate::text::{self, Bracketed, Mistake};
use crate::trouble::Trouble;

/// How inputs are to be read.
#[derive(Clone, Debug, Default)]
pub struct Reading {
    /// The form that is forced.
    pub form: Option<Form>,
    /// The names given.
    pub names: Names,
}

impl Reading {
    /// Reads an input as this sort; where none is given, as the sort that its heading or its entries tell. It is the call's
    /// input of this number.
    ///
    /// # Errors
    ///
    /// The file cannot be read, its text has a mistake, or the library refuses it.
    pub fn input(
        &self,
        path: &Path,
        sort: Option<Sort>,
        input: u16,
        naming: Naming<'_>,
    ) -> Result<Input, Trouble> {
        self.input_of(path, bytes_of(path)?, sort, input, naming)
    }

    /// The same for the bytes of that file.
    ///
    /// # Errors
    ///
    /// The text has a mistake, or the library refuses the input.
    pub fn input_of(
        &self,
        path: &Path,
        bytes: Vec<u8>,
        sort: Option<Sort>,
        input: u16,
        naming: Naming<'_>,
    ) -> Result<Input, Trouble> {
        let draft = match self.form_at(path, &bytes) {
            Form::Blocks if self.form.is_some() || !is_stored(&bytes, sort) => {
                self.blocks(path, bytes, sort)
            }
            Form::Blocks | Form::Stored => Input {
                stored: Some(bytes.len() / blocks::BLOCK),
                ..self.blocks(path, unstored(path, &bytes, input, &self.names)?, sort)
            },
            Form::Text => self.text(path, &bytes, sort)?,
        };
        accepted(path, draft, input, naming)
    }

    /// The form that is forced, or that the ending of the file tells, or the one that its bytes have.
    fn form_at(&self, path: &Path, bytes: &[u8]) -> Form {
        let ended = path
            .extension()
            .is_some_and(|ending| ending == stored::ENDING);
        match self.form {
            None if ended => Form::Stored,
            _ => self.form_of(bytes),
        }
    }

    /// The form that is forced, or the one that these bytes have.
    pub fn form_of(&self, bytes: &[u8]) -> Form {
        self.form.unwrap_or(Form::of(bytes))
    }

    /// Whether these bytes are a text with this heading.
    pub fn is_headed(&self, bytes: &[u8], heading: &str) -> bool {
        let text = std::str::from_utf8(bytes);
        self.form_of(bytes) == Form::Text && text.is_ok_and(|text| text::is_headed(text, heading))
    }

    /// Reads the bytes of a file as a list of pairs.
    ///
    /// # Errors
    ///
    /// The text has a mistake, or the library refuses the list.
    pub fn list_of(&self, path: &Path, bytes: Vec<u8>) -> Result<List, Trouble> {
        let mut names = self.names.clone();
        let draft = match self.form.unwrap_or(Form::of_list(&bytes)) {
            Form::Blocks | Form::Stored => List {
                title: title(path),
                pairs: pairs::decode(&bytes),
                bytes,
                names,
                positions: Vec::new(),
            },
            Form::Text => {
                let text = text_of(path, &bytes)?;
                let parsed = text::parse_pairs(text, &names);
                let all = || text::mistakes_of_pairs(text, &self.names);
                let parsed = parsed.map_err(|first| all_mistaken(path, first, text, all()))?;
                join(&mut names, parsed.words, path, text)?;
                List {
                    title: title(path),
                    bytes: pairs::encode(&parsed.pairs),
                    pairs: parsed.pairs,
                    names,
                    positions: parsed.positions,
                }
            }
        };
        accepted_list(path, draft)
    }

    /// Reads the bytes of a file as a dictionary.
    ///
    /// # Errors
    ///
    /// The text has a mistake, or the library refuses the dictionary.
    pub fn dictionary_of(&self, path: &Path, bytes: Vec<u8>) -> Result<Dictionary, Trouble> {
        let mut names = self.names.clone();
        let draft = match self.form_of(&bytes) {
            Form::Blocks | Form::Stored => Dictionary {
                title: title(path),
                parts: dictionary::decode(&bytes),
                bytes,
                names,
            },
            Form::Text => {
                let parts = self.parts(path, &bytes, Bracketed::Dictionary, &mut names)?;
                Dictionary {
                    title: title(path),
                    bytes: dictionary::encode(&parts),
                    parts,
                    names,
                }
            }
        };
        accepted_dictionary(path, draft)
    }

    /// Reads the bytes of a file as a list of services, each of which may name these.
    ///
    /// # Errors
    ///
    /// The text has a mistake, or the library refuses the list or a service.
    pub fn services_of(
        &self,
        path: &Path,
        bytes: Vec<u8>,
        naming: Naming<'_>,
    ) -> Result<Services, Trouble> {
        let services = self.unread_services_of(path, bytes)?;
        for (number, input) in (1..=services.parts.len()).zip(2..) {
            let read = accepted(path, services.draft(number), input, naming);
            read.map_err(|trouble| trouble.within(&format!("service {number}")))?;
        }
        Ok(services)
    }

    /// The same where the library only says whether it refuses the list as a whole.
    ///
    /// # Errors
    ///
    /// The text has a mistake, or the library refuses the list.
    pub fn unread_services_of(&self, path: &Path, bytes: Vec<u8>) -> Result<Services, Trouble> {
        let mut names = self.names.clone();
        let (parts, bytes) = match self.form_of(&bytes) {
            Form::Blocks | Form::Stored => (dictionary::decode(&bytes), bytes),
            Form::Text => {
                let parts = self.parts(path, &bytes, Bracketed::Services, &mut names)?;
                let bytes = dictionary::encode(&parts);
                (parts, bytes)
            }
        };
        accepted_services(path, &bytes)?;
        Ok(Services {
            title: title(path),
            parts,
            bytes,
            names,
        })
    }

    /// Reads a file as a delivered record: a text, a table, or blocks of so many items.
    ///
    /// # Errors
    ///
    /// The file cannot be read, its text has a mistake, or the library refuses the record.
    pub fn record(
        &self,
        path: &Path,
        bytes: Vec<u8>,
        items: Option<usize>,
        under: Under<'_>,
    ) -> Result<Delivered, Trouble> {
        let draft = match self.form_of(&bytes) {
            Form::Blocks | Form::Stored => self.record_of_blocks(path, bytes, items)?,
            Form::Text => self.record_of_text(path, &bytes, items)?,
        };
        accepted_record(path, draft, under)
    }

    fn record_of_blocks(
        &self,
        path: &Path,
        bytes: Vec<u8>,
        items: Option<usize>,
    ) -> Result<Delivered, Trouble> {
        let items = items.ok_or_else(|| Trouble::File {
            file: named(path),
            why: "blocks do not say how many items the record has; --items N does".into(),
        })?;
        Ok(Delivered {
            title: title(path),
            items,
            entries: blocks::decode(&bytes),
            bytes,
            names: self.names.clone(),
            positions: Vec::new(),
        })
    }

    fn record_of_text(
        &self,
        path: &Path,
        bytes: &[u8],
        items: Option<usize>,
    ) -> Result<Delivered, Trouble> {
        let mut names = self.names.clone();
        let text = text_of(path, bytes)?;
        let parsed = text::parse_record(text, &names);
        let parsed = parsed.map_err(|mistake| mistaken(path, mistake, text))?;
        join(&mut names, parsed.words, path, text)?;
        Ok(Delivered {
            title: title(path),
            items: items.unwrap_or(parsed.items),
            bytes: blocks::encode(&parsed.entries),
            entries: parsed.entries,
            names,
            positions: parsed.positions,
        })
    }

    /// The descriptions in brackets of a text; its words join the names.
    fn parts(
        &self,
        path: &Path,
        bytes: &[u8],
        of: Bracketed,
        names: &mut Names,
    ) -> Result<Vec<Part>, Trouble> {
        let text = text_of(path, bytes)?;
        let parsed = text::parse_parts(text, names, of);
        let all = || text::mistakes_of_parts(text, &self.names, of);
        let parsed = parsed.map_err(|first| all_mistaken(path, first, text, all()))?;
        join(names, parsed.words, path, text)?;
        Ok(parsed.parts)
    }

    fn blocks(&self, path: &Path, bytes: Vec<u8>, sort: Option<Sort>) -> Input {
        let entries = blocks::decode(&bytes);
        Input {
            sent: entries.len(),
            stored: None,
            origins: Vec::new(),
            title: title(path),
            sort: sort.unwrap_or_else(|| Sort::guess(&entries)),
            entries,
            bytes,
            names: self.names.clone(),
            positions: Vec::new(),
        }
    }

    fn text(&self, path: &Path, bytes: &[u8], sort: Option<Sort>) -> Result<Input, Trouble> {
        let text = text_of(path, bytes)?;
        let parsed = text::parse(text, &self.names);
        let all = |first| all_mistaken(path, first, text, text::mistakes(text, &self.names));
        let parsed = parsed.map_err(all)?;
        if let (Some(due), Some((said, at))) = (sort, parsed.sort) {
            if due != said {
                let expected = format!("a {} here", due.word());
                let mistake = Mistake::new(at, expected, format!("the heading '{}'", said.word()));
                return Err(mistaken(path, mistake, text));
            }
        }
        let said = parsed.sort.map(|(said, _)| said);
        let mut names = self.names.clone();
        join(&mut names, parsed.words, path, text)?;
        Ok(Input {
            sent: parsed.entries.len(),
            stored: None,
            origins: Vec::new(),
            title: title(path),
            sort: sort
                .or(said)
                .unwrap_or_else(|| Sort::guess(&parsed.entries)),
            bytes: blocks::encode(&parsed.entries),
            entries: parsed.entries,
            names,
            positions: parsed.positions,
        })
    }
}

/// Whether bytes that are not said to be in the stored form are: the library accepts them in it. Of all descriptions only two are accepted
/// in both forms, the one of no entries and 'nothing fits' alone, and these say the same in both; a specimen with entries is not.
fn is_stored(bytes: &[u8], sort: Option<Sort>) -> bool {
    let description = library::from_stored(bytes);
    sort != Some(Sort::Specimen) && description.is_ok_and(|d| !blocks::decode(&d).is_empty())
}

/// Takes over the words of a text.
fn join(names: &mut Names, words: Names, path: &Path, text: &str) -> Result<(), Trouble> {
    let placed = words.placed(&named(path), text);
    names.join(&placed).map_err(Trouble::Words)
}
