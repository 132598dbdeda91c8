//! Stored plans: what a file holds, that it is read back word for word, typed where its words make a
//! plan, and every refusal of storing and loading.

#![cfg(feature = "alloc")]

use midvokt::{
    encode, file_bytes, load, load_into, load_words, plan, plan_into, store, store_encoded,
    store_into, store_words, Buffers, Fault, Head, Lengths, Misfit, Place, Reason, Record, Refusal,
    Rotation, Sections, Stored, StoredPlan, StoredWords, FILE_VERSION, LARGEST_CEILING,
    LOAD_RESULT_WORDS, MEASUREMENT_WORDS, ROTATION_WORDS, SCALAR_WORDS, STORE_RESULT_WORDS,
    TRAILER_WORDS,
};

/// A head with so many coordinates at the start, and max_k 8.
fn head(initial_k: u64) -> Head {
    Head {
        initial_k,
        max_k: 8,
        nexpvals: 0,
        ceiling: LARGEST_CEILING,
    }
}

/// A rotation by 0.5 about X, or with a phase about Z.
fn rotation(width: u64, x: u64, z: u64, phase: u64) -> Record {
    let angle: f64 = 0.5;
    Record::Rotation(Rotation {
        width,
        x,
        z,
        phase,
        angle,
        sine: angle.sin(),
        cosine: angle.cos(),
    })
}

/// Records of every kind, with two joins and an end, for a head of three.
fn circuit() -> Vec<Record> {
    vec![
        Record::RecordDetector,
        rotation(3, 5, 0, 0),
        Record::Promotion,
        Record::measurement(4, 0, 6, 0, 2),
        rotation(3, 1, 4, 2),
        Record::expectation(),
        Record::measurement(3, 4, 0, 1, 2),
    ]
}

/// The circuit's file.
fn file() -> Vec<u8> {
    store(&head(3), &circuit()).unwrap()
}

/// The words of a file.
fn words(file: &[u8]) -> Vec<u64> {
    let word = |bytes: &[u8]| u64::from_le_bytes(bytes.try_into().unwrap());
    file.chunks(8).map(word).collect()
}

/// The bytes of words.
fn bytes(words: &[u64]) -> Vec<u8> {
    words.iter().flat_map(|word| word.to_le_bytes()).collect()
}

/// The sections of a file, by the starts and counts in its trailer.
fn sections(file: &[u8]) -> Vec<Vec<u64>> {
    let words = words(file);
    let trailer = &words[words.len() - TRAILER_WORDS..];
    let section = |place: &[u64]| words[place[0] as usize..][..place[1] as usize].to_vec();
    trailer[..14].chunks(2).map(section).collect()
}

/// A file of sections, with the trailer that belongs to them.
fn file_of(sections: &[Vec<u64>]) -> Vec<u8> {
    let mut words = sections.concat();
    let mut start = 0;
    for section in sections {
        words.extend([start, section.len() as u64]);
        start += section.len() as u64;
    }
    words.extend([8 * (start + TRAILER_WORDS as u64), FILE_VERSION]);
    bytes(&words)
}

/// The number of a refusal, which has to be of no record.
fn number(refused: Refusal) -> u64 {
    assert_eq!((refused.index, refused.is_of_record()), (0, false));
    refused.number()
}

/// The plan of a file that holds one.
fn loaded(file: &[u8]) -> StoredPlan {
    match load(file) {
        Ok(Stored::Plan(plan)) => plan,
        other => panic!("no plan: {other:?}"),
    }
}

/// All words that a file gives, typed or not; a typed plan gives its own.
fn given(stored: &Stored) -> StoredWords {
    match stored {
        Stored::Plan(plan) => plan.to_words(),
        Stored::Words { words, .. } => words.clone(),
    }
}

/// Whether words are those of these sections.
fn are(words: &StoredWords, sections: &[Vec<u64>]) -> bool {
    let scalars = words.scalars.in_order();
    let six = [
        &words.steps,
        &words.merges,
        &words.sizes,
        &words.rotations,
        &words.promotions,
        &words.measurements,
    ];
    six.into_iter().eq(&sections[..6]) && scalars[..] == sections[6]
}

/// Programs of several shapes with their heads.
fn programs() -> Vec<(Head, Vec<Record>)> {
    let unread = Head {
        max_k: 7,
        ..head(u64::MAX)
    };
    let expecting = Head {
        nexpvals: 1,
        ..head(600)
    };
    let most = vec![rotation(61, (1 << 61) - 1, 0, 0); 1024];
    let pairs = |width: u64| (0..width - 1).map(move |from| rotation(width, 3 << from, 0, 0));
    let ends = (1..=20).rev().map(|width| {
        let last = width - 1;
        Record::measurement(width, 1 << last, 0, 0, last)
    });
    vec![
        (head(3), circuit()),
        (head(0), vec![]),
        (head(512), vec![]),
        (head(0), vec![rotation(0, 0, 0, 0); 3]),
        (head(0), vec![Record::Promotion; 512]),
        (head(61), most),
        (head(20), pairs(20).chain(ends).collect()),
        (unread, circuit()),
        (expecting, vec![Record::Promotion; 2000]),
    ]
}

#[test]
fn what_is_stored_is_loaded_as_it_was_planned() {
    for (head, records) in programs() {
        let planned = plan(&head, &records).unwrap();
        let file = store(&head, &records).unwrap();
        assert!(file.len() <= file_bytes(records.len()));
        assert_eq!(loaded(&file), StoredPlan::from(planned));
        assert!(are(&loaded(&file).to_words(), &sections(&file)));
    }
}

#[test]
fn a_file_has_sections_that_touch_and_a_trailer() {
    for (head, records) in programs() {
        let file = store(&head, &records).unwrap();
        assert_eq!(file_of(&sections(&file)), file);
        let counts: Vec<_> = sections(&file).iter().map(Vec::len).collect();
        let read = if head.leaves_unread() {
            0
        } else {
            records.len()
        };
        assert_eq!((counts[0], counts[6]), (2 * read, SCALAR_WORDS));
    }
    let counts: Vec<_> = sections(&file()).iter().map(Vec::len).collect();
    assert_eq!(counts, [14, 7, 4, 42, 1, 38, 8]);
}

#[test]
fn an_unread_plan_is_scalars_and_trailer() {
    let unread = Head {
        max_k: 7,
        ..head(u64::MAX)
    };
    let file = store(&unread, &circuit()).unwrap();
    assert_eq!(file.len(), 8 * (8 + 16));
    let plan = loaded(&file);
    assert_eq!(plan.initial_components, usize::MAX);
    assert_eq!((plan.component_count, plan.dense_peak_dimension), (0, 128));
    assert!(plan.instruction_steps.is_empty() && plan.component_max_k.is_empty());
}

/// Seven buffers for so many records, all of noise.
fn noise(records: usize) -> [Vec<u64>; 7] {
    let lengths = Lengths::for_records(records).in_order();
    lengths.map(|length| vec![0x5a5a; length])
}

/// The same, lent.
fn lend(words: &mut [Vec<u64>; 7]) -> Buffers<'_> {
    Buffers::from(words.each_mut().map(Vec::as_mut_slice))
}

#[test]
fn lent_buffers_hold_the_plan_and_its_file() {
    let records = encode(&circuit());
    let (mut planned, mut stored) = (noise(7), noise(7));
    plan_into(&head(3), &records, &mut lend(&mut planned)).unwrap();
    let mut lent = vec![0x5a; file_bytes(7)];
    let length = store_into(&head(3), &records, &mut lend(&mut stored), &mut lent).unwrap();
    assert_eq!(stored, planned);
    assert_eq!(lent[..length], file());
    assert!(lent[length..].iter().all(|&byte| byte == 0));
    let just = &mut lent[1..length + 1];
    assert_eq!(
        store_into(&head(3), &records, &mut lend(&mut stored), just),
        Ok(length)
    );
    assert_eq!(store_encoded(&head(3), &records), Ok(file()));
}

#[test]
fn lent_outputs_hold_every_row() {
    let file = file();
    let mut planned = noise(7);
    let summary = plan_into(&head(3), &encode(&circuit()), &mut lend(&mut planned)).unwrap();
    let mut words = noise(7);
    let [steps, merges, sizes, rotations, promotions, measurements, _] =
        words.each_mut().map(Vec::as_mut_slice);
    let six = [steps, merges, sizes, rotations, promotions, measurements];
    let mut outputs = Sections::from(six);
    let loaded = load_into(&file, &mut outputs).unwrap();
    let buffers = lend(&mut planned);
    assert_eq!(outputs.step(3), buffers.step(3));
    assert_eq!(outputs.rotation(1), buffers.rotation(1));
    assert_eq!(outputs.promotion(0), buffers.promotion(0));
    assert_eq!(outputs.measurement(1), buffers.measurement(1));
    assert_eq!(outputs.sources(0, 4), buffers.sources(0, 4));
    assert!(outputs.sources(usize::MAX, 2).is_empty() && outputs.step(7).is_none());
    assert_eq!(words[..6], planned[..6]);
    let counts = loaded.counts;
    assert_eq!((counts.steps, counts.merges, counts.sizes), (14, 7, 4));
    assert_eq!((counts.rotations, counts.promotions), (42, 1));
    assert_eq!(counts.measurements, 38);
    assert_eq!(loaded.scalars.component_count, 4);
    assert_eq!(
        f64::from_bits(loaded.scalars.estimated_dense_work),
        summary.estimated_dense_work
    );
}

#[test]
fn planning_is_refused_before_the_file() {
    let refused = |initial_k, file: &mut [u8]| {
        let mut words = noise(7);
        let records = encode(&circuit());
        let refused = store_into(&head(initial_k), &records, &mut lend(&mut words), file);
        assert!(words.iter().flatten().all(|&word| word == 0));
        assert!(file.iter().all(|&byte| byte == 0));
        refused.unwrap_err()
    };
    let length = file().len();
    for bytes in [0, length - 1] {
        let short = refused(3, &mut vec![0x5a; bytes]);
        assert_eq!((short.reason, number(short)), (Reason::Lengths, 23));
        let width = refused(4, &mut vec![0x5a; bytes]);
        assert_eq!((width.reason, width.index), (Reason::RotationWidth, 1));
    }
    let width = store(&head(4), &circuit()).unwrap_err();
    assert_eq!((width.reason, width.index), (Reason::RotationWidth, 1));
    let many = store(&head(3), &vec![Record::Promotion; 1025]).unwrap_err();
    assert_eq!(many.reason, Reason::RecordWords);
}

/// The number that a file is refused with, whatever its outputs' lengths.
fn refused(file: &[u8]) -> u64 {
    let mut room = [(); 6].map(|()| vec![0x5a5a; 600]);
    let mut outputs = Sections::from(room.each_mut().map(Vec::as_mut_slice));
    let found = number(load_into(file, &mut outputs).unwrap_err());
    assert!(room.iter().flatten().all(|&word| word == 0));
    assert_eq!(number(load(file).unwrap_err()), found);
    found
}

/// The file with a word of its trailer set.
fn with_trailer(place: usize, word: u64) -> Vec<u8> {
    let mut words = words(&file());
    let trailer = words.len() - TRAILER_WORDS;
    words[trailer + place] = word;
    bytes(&words)
}

#[test]
fn a_file_of_a_wrong_length_or_version_is_refused() {
    let file = file();
    assert_eq!(refused(&[]), 21);
    for length in [1, 8, 120, 127, 128, file.len() - 8, file.len() - 1] {
        assert_eq!(refused(&file[..length]), 21, "{length}");
    }
    let longer = [&file[..], &[0; 8]].concat();
    assert_eq!(refused(&longer), 21);
    assert_eq!(refused(&with_trailer(14, file.len() as u64 + 8)), 21);
    for version in [0, 2, 1 << 32 | 1, u64::MAX] {
        assert_eq!(refused(&with_trailer(15, version)), 21);
    }
}

#[test]
fn sections_out_of_place_are_refused() {
    for place in 0..14 {
        let before = words(&file())[file().len() / 8 - TRAILER_WORDS + place];
        for word in [
            before ^ 1,
            before.wrapping_add(2),
            u64::MAX,
            1 << 61,
            1 << 63,
        ] {
            assert_eq!(refused(&with_trailer(place, word)), 22, "{place}: {word}");
        }
    }
    let mut wrapping = words(&file());
    let trailer = wrapping.len() - TRAILER_WORDS;
    // Merges of 2^64 - 1 words from 14 on, so that sizes begin at 13 and are longer by 8.
    wrapping[trailer + 3] = u64::MAX;
    wrapping[trailer + 4] = 13;
    wrapping[trailer + 5] = 12;
    assert_eq!(refused(&bytes(&wrapping)), 22);
}

/// The file with so many words of a section moved to the one behind it, or back.
fn moved(section: usize, words: isize) -> Vec<u8> {
    let mut sections = sections(&file());
    for _ in 0..words {
        let last = sections[section].pop().unwrap();
        sections[section + 1].insert(0, last);
    }
    for _ in words..0 {
        let first = sections[section + 1].remove(0);
        sections[section].push(first);
    }
    file_of(&sections)
}

#[test]
fn counts_that_no_plan_has_are_refused() {
    for (section, words) in [(0, 1), (0, -1), (1, 1), (1, -1), (3, 7), (3, 20), (4, 1)] {
        assert_eq!(refused(&moved(section, words)), 23, "{section}: {words}");
    }
    let mut strange = sections(&file());
    strange[6][2] = 5;
    assert_eq!(refused(&file_of(&strange)), 23);
    strange[2].push(1);
    assert!(load(&file_of(&strange)).is_ok());
    for scalars in [7, 9] {
        let mut sections = sections(&file());
        sections[6].resize(scalars, 0);
        assert_eq!(refused(&file_of(&sections)), 23);
    }
}

#[test]
fn an_output_shorter_than_its_section_is_refused() {
    let file = file();
    let counts: Vec<_> = sections(&file)[..6].iter().map(Vec::len).collect();
    for short in 0..6 {
        let mut words: [Vec<u64>; 6] = std::array::from_fn(|output| {
            let less = usize::from(output == short);
            vec![0x5a5a; counts[output] - less]
        });
        let mut outputs = Sections::from(words.each_mut().map(Vec::as_mut_slice));
        assert_eq!(number(load_into(&file, &mut outputs).unwrap_err()), 23);
        assert!(words.iter().flatten().all(|&word| word == 0));
    }
}

#[test]
fn results_of_other_lengths_have_the_same_words() {
    let file = file();
    let stored = |length| {
        let (mut result, mut bytes) = (vec![0x5a5a; length], vec![0; file.len()]);
        let records = encode(&circuit());
        let mut words = noise(7);
        let buffers = &mut lend(&mut words);
        assert_eq!(
            store_words(&head(3), &records, buffers, &mut bytes, &mut result),
            0
        );
        result
    };
    let loaded = |length| {
        let (mut result, mut room) = (vec![0x5a5a; length], [(); 6].map(|()| vec![0; 60]));
        let mut outputs = Sections::from(room.each_mut().map(Vec::as_mut_slice));
        assert_eq!(load_words(&file, &mut outputs, &mut result), 0);
        result
    };
    let whole = loaded(LOAD_RESULT_WORDS);
    assert_eq!(whole[0], 0);
    assert_eq!(whole[1..9], sections(&file)[6]);
    assert_eq!(whole[9..], [14, 7, 4, 42, 1, 38]);
    let stored_whole = stored(STORE_RESULT_WORDS);
    assert_eq!(stored_whole, [0, file.len() as u64]);
    for length in 0..20 {
        let mut wanted = [&whole[..], &[0; 5]].concat();
        wanted.truncate(length);
        assert_eq!(loaded(length), wanted);
        let mut wanted = [&stored_whole[..], &[0; 18]].concat();
        wanted.truncate(length);
        assert_eq!(stored(length), wanted);
    }
}

#[test]
fn every_damaged_byte_is_refused_or_kept() {
    let file = file();
    let mut raw = 0;
    for place in 0..file.len() {
        for change in [0x01, 0x02, 0x7f, 0x80, 0xff] {
            let mut damaged = file.clone();
            damaged[place] ^= change;
            let Ok(stored) = load(&damaged) else {
                continue;
            };
            assert!(are(&given(&stored), &sections(&damaged)), "{place}");
            raw += usize::from(matches!(stored, Stored::Words { .. }));
        }
    }
    assert!(raw > 100, "{raw}");
}

/// Numbers that look drawn by chance.
struct Chance(u64);

impl Chance {
    /// The next one below a limit.
    fn below(&mut self, limit: u64) -> u64 {
        self.0 = self
            .0
            .wrapping_mul(6_364_136_223_846_793_005)
            .wrapping_add(1_442_695_040_888_963_407);
        (self.0 >> 33) % limit
    }
}

#[test]
fn sections_of_any_words_are_kept() {
    let mut chance = Chance(1);
    let (mut typed, mut raw) = (0, 0);
    for round in 0..4000 {
        let counts = [6, 3, 2, 21, 2, 19].map(|most| most * chance.below(2) as usize);
        let limit = [2, 3, 5, u64::MAX][round % 4];
        let mut section =
            |count: usize| (0..count).map(|_| chance.below(limit)).collect::<Vec<_>>();
        let mut sections: Vec<_> = counts.into_iter().map(&mut section).collect();
        sections.push(section(SCALAR_WORDS));
        sections[6][2] = counts[2] as u64;
        let file = file_of(&sections);
        let stored = load(&file).unwrap();
        assert!(are(&given(&stored), &sections));
        match stored {
            Stored::Plan(_) => typed += 1,
            Stored::Words { .. } => raw += 1,
        }
    }
    assert!(typed > 100 && raw > 100, "{typed} {raw}");
}

/// What is said of the file with one word of a section set.
fn misfit(section: usize, place: usize, word: u64) -> Option<Misfit> {
    let mut sections = sections(&file());
    sections[section][place] = word;
    match load(&file_of(&sections)).unwrap() {
        Stored::Plan(plan) => {
            assert!(are(&plan.to_words(), &sections));
            None
        }
        Stored::Words { words, misfit } => {
            assert!(are(&words, &sections));
            Some(misfit)
        }
    }
}

/// The same, as a place and a fault.
fn found(section: usize, place: usize, word: u64) -> Option<(Place, Fault)> {
    misfit(section, place, word).map(|misfit| (misfit.place, misfit.fault))
}

const NAN: u64 = 0x7ff4_0000_0000_0001;

#[test]
fn scalars_and_sources_that_make_no_plan_are_words() {
    assert_eq!(found(6, 0, 7), Some((Place::Scalars, Fault::Word)));
    assert_eq!(found(6, 3, NAN), Some((Place::Scalars, Fault::NotANumber)));
    assert_eq!(
        found(6, 4, u64::MAX),
        Some((Place::Scalars, Fault::NotANumber))
    );
    assert_eq!(found(1, 6, 4), Some((Place::Merge(6), Fault::Component)));
    assert_eq!(
        found(1, 0, u64::MAX),
        Some((Place::Merge(0), Fault::Component))
    );
    for (place, word) in [(0, 0), (1, u64::MAX), (3, 1 << 63), (5, 77), (7, u64::MAX)] {
        assert_eq!(found(6, place, word), None);
    }
    assert_eq!((found(1, 6, 3), found(2, 0, u64::MAX)), (None, None));
}

#[test]
fn steps_that_make_no_plan_are_words() {
    assert_eq!(found(0, 0, 5), Some((Place::Step(0), Fault::Word)));
    assert_eq!(found(0, 1, 1), Some((Place::Step(0), Fault::Word)));
    assert_eq!(
        found(0, 2, 1 << 32 | 2),
        Some((Place::Step(1), Fault::Word))
    );
    assert_eq!(found(0, 3, 2), Some((Place::Step(1), Fault::Row)));
    assert_eq!(found(0, 5, 1), Some((Place::Step(2), Fault::Row)));
    assert_eq!(found(0, 7, u64::MAX), Some((Place::Step(3), Fault::Row)));
    assert_eq!((found(0, 3, 1), found(0, 0, 1)), (None, None));
}

#[test]
fn rows_that_make_no_plan_are_words() {
    let second = ROTATION_WORDS;
    for (place, word, fault) in [
        (0, 4, Fault::Component),
        (1, 7, Fault::Sources),
        (1, u64::MAX, Fault::Sources),
        (2, 8, Fault::Sources),
        (10, 2, Fault::Word),
        (11, 7, Fault::Word),
        (12, u64::MAX, Fault::Word),
        (13, 1 << 32, Fault::Word),
        (14, 1 << 32, Fault::Word),
        (6, NAN, Fault::NotANumber),
        (9, NAN, Fault::NotANumber),
        (16, NAN, Fault::NotANumber),
        (20, u64::MAX, Fault::NotANumber),
    ] {
        let wanted = Some((Place::Rotation(1), fault));
        assert_eq!(found(3, second + place, word), wanted, "{place}");
    }
    for place in [3, 4, 5, 14, 15] {
        assert_eq!(found(3, place, u64::from(u32::MAX)), None);
    }
    assert_eq!(
        found(4, 0, 4),
        Some((Place::Promotion(0), Fault::Component))
    );
    assert_eq!(found(4, 0, 3), None);
}

#[test]
fn measurements_that_make_no_plan_are_words() {
    let second = MEASUREMENT_WORDS;
    for (place, word, fault) in [
        (0, u64::MAX, Fault::Component),
        (2, u64::MAX, Fault::Sources),
        (10, 2, Fault::Word),
        (12, 2, Fault::Word),
        (13, 2, Fault::Word),
        (18, 1 << 63, Fault::Word),
        (7, NAN, Fault::NotANumber),
        (17, NAN, Fault::NotANumber),
    ] {
        let wanted = Some((Place::Measurement(1), fault));
        assert_eq!(found(5, second + place, word), wanted, "{place}");
    }
    for place in [3, 4, 5, 11, 14, 15] {
        assert_eq!(found(5, place, u64::MAX), None);
    }
}

#[test]
fn a_misfit_is_said_in_words() {
    let said = |section, place, word| misfit(section, place, word).unwrap().to_string();
    assert_eq!(
        said(3, 0, 9),
        "rotation row 0: it names a component that is not there"
    );
    assert_eq!(said(6, 0, 7), "selected is neither 0 nor 1");
    assert_eq!(said(6, 3, NAN), "the works: a float is no number");
    assert_eq!(
        said(0, 4, 99),
        "the step of record 2: a word is none that its field can have"
    );
    assert_eq!(
        said(0, 7, 2),
        "the step of record 3: it names a row that is not there"
    );
    assert_eq!(
        said(5, 1, 7),
        "measurement row 0: its sources reach past the merge list"
    );
    assert_eq!(
        said(1, 3, 4),
        "word 3 of the merge list: it names a component that is not there"
    );
    assert_eq!(
        said(4, 0, 4),
        "promotion row 0: it names a component that is not there"
    );
}
