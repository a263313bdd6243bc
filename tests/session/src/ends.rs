//! Sessions that can't say a text any more.

use bodies::{Format, TEXT_KIND};
use cka::{Agreement, PublicText, SecretText};
use dr_base::{Key32, Side};
use fs_aead::Skipped;
use kem_laws::OpenKem;
use ratchet::Session;
use session_model::{Awaiting, Head, Own, Phase, Reception, SendRefusal, SessionPart};
use std::marker::PhantomData;
use std::test::Fail;

/// Second, which said all texts that its epoch 0 holds.
fn full_session() -> Session<OpenKem> {
    let mut secret = SecretText::new();
    secret.try_extend_from_slice(&[1; 32]).unwrap();
    Session::resume(SessionPart {
        head: Head {
            side: Side::Second,
            format: Format::Plain,
            session: [2; 16],
            root: Key32 { bytes: [3; 32] },
            epoch: 0,
            phase: Phase::Own(Own {
                secret,
                agreement: Agreement::new(),
                chain: Key32 { bytes: [4; 32] },
                sent: 65535,
            }),
            previous: 0,
            receiving: None,
            awaiting: Awaiting::new(),
            mechanism: PhantomData,
        },
        kept: Skipped::new(),
    })
}

/// First in the last epoch, which is Second's.
fn last_session() -> Session<OpenKem> {
    let mut public = PublicText::new();
    public.try_extend_from_slice(&[1; 32]).unwrap();
    Session::resume(SessionPart {
        head: Head {
            side: Side::First,
            format: Format::Plain,
            session: [2; 16],
            root: Key32 { bytes: [3; 32] },
            epoch: 4294967294,
            phase: Phase::Peers(public),
            previous: 0,
            receiving: Some(Reception {
                chain: Key32 { bytes: [4; 32] },
                reach: 0,
            }),
            awaiting: Awaiting::new(),
            mechanism: PhantomData,
        },
        kept: Skipped::new(),
    })
}

#[test]
fn ends_are_refused(rt: HostRuntime) -> Result<(), Fail> {
    assert!(rt; full_session().send_check(TEXT_KIND, b"x") == Err(SendRefusal::EpochFull));
    assert!(rt; last_session().send_check(TEXT_KIND, b"x") == Err(SendRefusal::LastEpoch));
    Ok(())
}
