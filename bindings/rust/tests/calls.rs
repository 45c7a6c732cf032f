//! The safe calls against the archive.
use std::io::Write;
use tulgranie::label::{self, Why};
use tulgranie::{full, micro, nano, word4, word8, Finished, RapidSecrets, StreamHasher};

fn message(n: usize) -> Vec<u8> {
    (0..n).map(|i| (i * 197 + i / 3 * 59 + 7) as u8).collect()
}

#[test]
fn the_empty_message_hashes_as_in_the_rust() {
    let secrets = RapidSecrets::default();
    assert_eq!(secrets.seed, 0x422765567d8fbfd6);
    assert_eq!(full(&[], secrets, true, false, false), 0x0338dc4be2cecdae);
}

#[test]
fn compact_changes_nothing_and_small_messages_hash_alike() {
    for n in 0..=300 {
        for flags in 0..4 {
            let (data, secrets) = (message(n), RapidSecrets::seed(n as u64));
            let (avalanche, protected) = (flags & 1 == 1, flags & 2 == 2);
            let hash = full(&data, secrets, avalanche, true, protected);
            assert_eq!(hash, full(&data, secrets, avalanche, false, protected));
            assert_eq!(hash == micro(&data, secrets, avalanche, protected), n <= 80, "micro at {n}");
            assert_eq!(hash == nano(&data, secrets, avalanche, protected), n <= 48, "nano at {n}");
        }
    }
}

#[test]
fn a_stream_is_the_same_however_it_is_cut() {
    let secrets = RapidSecrets::seed(7);
    for n in [0, 1, 16, 17, 111, 112, 113, 224, 225, 500] {
        let data = message(n);
        let wanted =
            Finished { hash: full(&data, secrets, false, true, true), chunks: (n.max(1) as u64 - 1) / 112 };
        let mut hasher = StreamHasher::new(secrets, false, true);
        for cut in 0..=n {
            hasher.reset();
            hasher.write(&data[..cut]).unwrap();
            let between = hasher.finish().unwrap();
            assert_eq!(between.hash, full(&data[..cut], secrets, false, true, true));
            hasher.write(&data[cut..]).unwrap();
            assert_eq!(hasher.finish(), Ok(wanted), "{n} bytes cut at {cut}");
        }
    }
}

#[test]
fn a_stream_is_a_writer() {
    let mut hasher = StreamHasher::new(RapidSecrets::default(), true, false);
    write!(hasher, "Théière").unwrap();
    hasher.flush().unwrap();
    let whole = full("Théière".as_bytes(), RapidSecrets::default(), true, false, false);
    assert_eq!(hasher.finish().unwrap().hash, whole);
    assert!(format!("{hasher:?}").contains("waiting: 9"));
}

#[test]
fn words_and_secrets_have_ends() {
    let bytes = [1, 2, 3, 4, 5, 6, 7, 8, 9];
    assert_eq!(word8(&bytes, 1), Some(0x0908070605040302));
    assert_eq!(word8(&bytes, 2), None);
    assert_eq!(word4(&bytes, 5), Some(0x09080706));
    assert_eq!(word4(&bytes, usize::MAX), None);
    assert_eq!(word4(&[], 0), None);
    let secrets = RapidSecrets::seed(3);
    assert_eq!(secrets.secret(6), Some(secrets.secrets[6]));
    assert_eq!(secrets.secret(7), None);
    assert_eq!(secrets.reseed().secrets, secrets.secrets);
    assert_eq!(RapidSecrets::seed_cpp(0), RapidSecrets::default());
}

#[test]
fn records_are_read_or_refused_by_number_and_place() {
    let good = b"\x01\x01\x00A\x02\x00\x00\x80\x02\x00xy";
    assert_eq!(label::read(good), Ok(()));
    let cases: [(&[u8], Why, usize); 6] = [
        (b"", Why::Missing, 0),
        (b"\x01\x00\x00", Why::BadLength, 0),
        (b"\x01\x01\x00", Why::Cut, 0),
        (b"\x01\x01\x00A\x01\x01\x00B", Why::NotAbove, 4),
        (b"\x01\x01\x00A\x05\x00\x00", Why::NoSuchTag, 4),
        (&[0; 8193], Why::TooLong, 0),
    ];
    for (record, why, place) in cases {
        let refusal = label::read(record).unwrap_err();
        assert_eq!((refusal.why, refusal.place), (why, place));
        assert_eq!(label::fingerprint(record, RapidSecrets::default()), Err(refusal));
        assert_eq!(label::find(record, &[1]), Err(refusal));
    }
    let shown = label::read(b"\x01\x01\x00A\x01\x01\x00B").unwrap_err().to_string();
    assert_eq!(shown, "8 at 4: the tag is not above the one before");
}

#[test]
fn a_found_value_is_the_records_own() {
    let good = b"\x01\x01\x00A\x02\x00\x00\x80\x02\x00xy";
    let found = label::find(good, &[200, 128, 1]).unwrap();
    assert_eq!((found.tag, found.place, found.value), (128, 7, &b"xy"[..]));
    assert!(std::ptr::eq(found.value.as_ptr(), &good[10]));
    assert_eq!(label::find(good, &[2]).unwrap().value, b"");
    assert_eq!(label::find(good, &[]).unwrap_err().why, Why::NotListed);
    assert_eq!(
        label::find(good, &[3, 4]).unwrap_err().to_string(),
        "11 at 0: the record has none of the listed tags"
    );
}

#[test]
fn a_fingerprint_is_the_hash_of_the_values() {
    let record = b"\x01\x01\x00A\x02\x09\x00Th\xc3\xa9i\xc3\xa8re\xff\x01\x00z";
    let secrets = RapidSecrets::seed(11);
    let joined = "AThéière".as_bytes();
    assert_eq!(label::fingerprint(record, secrets), Ok(full(joined, secrets, true, false, false)));
}
