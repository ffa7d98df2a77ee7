//! A request goes on with our Via entry, and its reply comes back without it.

use net119::{add, read, remove, reply, text, well_formed, Path, Unread, Unwritten, LONGEST};

const BYE: &[u8] = br#"["request",{"CSeq":"7 BYE","To":"net119:u1@nishi.caller","From":"net119:fire@kita.callee","Call-ID":"A1.nx","Date":"2024-02-29T23:59:59+0900","Via":[{"host":"h1.nx","destination":"kita.callee","organization":"nx"}]}]"#;
const DATE: &[u8] = b"2024-03-01T00:00:00+0900";
const OURS: Path = Path {
    host: b"relay.nx",
    destination: b"nishi.caller",
    organization: b"nx",
};

#[test]
fn forwarding_and_back() {
    let (mut forwarded, mut answer, mut back, mut direct) =
        ([0; LONGEST], [0; LONGEST], [0; LONGEST], [0; LONGEST]);
    let length = add(&mut forwarded, BYE, OURS).unwrap();
    let forwarded = &forwarded[..length];
    let length = reply(&mut answer, forwarded, 200, DATE).unwrap();
    let answer = &answer[..length];
    assert_eq!(read(answer), Ok(()));
    let removed = remove(&mut back, answer, OURS).unwrap();
    assert_eq!(removed.next_host, b"h1.nx");
    let length = reply(&mut direct, BYE, 200, DATE).unwrap();
    assert_eq!(back[..removed.length], direct[..length]);
}

#[test]
fn refusals_leave_the_output() {
    let mut output = [0x5a; 64];
    assert_eq!(
        reply(&mut output, BYE, 200, DATE),
        Err(Unwritten { number: 33 })
    );
    assert_eq!(
        reply(&mut output, BYE, 299, DATE),
        Err(Unwritten { number: 31 })
    );
    assert_eq!(add(&mut output, b"", OURS), Err(Unwritten { number: 30 }));
    assert_eq!(
        remove(&mut output, BYE, OURS),
        Err(Unwritten { number: 30 })
    );
    assert_eq!(output, [0x5a; 64]);
    assert_eq!(
        read(b"[01]"),
        Err(Unread {
            number: 4,
            place: 2
        })
    );
    assert!(!well_formed(&[]));
}

#[test]
fn texts_of_parts() {
    let mut output = [0x5a; 10];
    assert_eq!(text(&mut output, br"h\u006fst\/x"), Ok(6));
    assert_eq!(&output, b"host/xZZZZ");
    assert_eq!(text(&mut output, br"\ud83d\ude92"), Ok(4));
    assert_eq!(&output, b"\xf0\x9f\x9a\x92/xZZZZ");
    assert_eq!(text(&mut output, b""), Ok(0));
    assert_eq!(text(&mut [], b""), Ok(0));
    assert_eq!(&output, b"\xf0\x9f\x9a\x92/xZZZZ");
}

#[test]
fn texts_that_are_refused_leave_the_output() {
    let mut output = [0x5a; 5];
    for (spelled, number) in [
        (&br"h\u006fst\/x"[..], 33),
        (br"h\ud83d", 9),
        // 9 before 33.
        (br"host\/x\ude92", 9),
        // 39 before 33.
        (&[b'x'; LONGEST + 1], 39),
        (&[b'x'; LONGEST], 33),
    ] {
        assert_eq!(text(&mut output, spelled), Err(Unwritten { number }));
        assert_eq!(output, [0x5a; 5]);
    }
}

/// A response whose Via is spelled with escapes: our entry is known by its text, and the next host is shown as it stands.
#[test]
fn the_next_host_in_other_letters() {
    const BACK: &[u8] = br#"["response",{"Status":"200 OK","CSeq":"7 BYE","To":"net119:u1@nishi.caller","From":"net119:fire@kita.callee","Call-ID":"A1.nx","Date":"2024-02-29T23:59:59+0900","Via":[{"host":"\u00681.nx","destination":"kita.callee","organization":"nx"},{"host":"relay\u002enx","destination":"nishi.caller","organization":"nx"}]}]"#;
    let (mut back, mut host) = ([0; LONGEST], [0; LONGEST]);
    let removed = remove(&mut back, BACK, OURS).unwrap();
    assert_eq!(removed.next_host, br"\u00681.nx");
    let length = text(&mut host, removed.next_host).unwrap();
    assert_eq!(host[..length], *b"h1.nx");
}
