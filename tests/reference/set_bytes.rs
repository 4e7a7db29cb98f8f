//! A set in eleven bytes (document 02, T-14): 1 if voiced, pitch index, L1 to L4, G2, G1, B, F, flag, with 0 for all that an
//! unvoiced set lacks. Ranges are not asked for.

use crate::melp::{Refusal, Set, Voicing};

/// The bytes of a set.
pub fn bytes_of(set: &Set) -> [u8; 11] {
    let [l1, l2, l3, l4] = set.lsf;
    let lacking = Voicing {
        pitch: 0,
        bandpass: 0,
        fourier: 0,
        aperiodic: 0,
    };
    let v = set.voicing.unwrap_or(lacking);
    let voiced = u8::from(set.voicing.is_some());
    [
        voiced,
        v.pitch,
        l1,
        l2,
        l3,
        l4,
        set.g2,
        set.g1,
        v.bandpass,
        v.fourier,
        v.aperiodic,
    ]
}

/// The set in bytes; any other form is refused.
pub fn set_of(bytes: &[u8]) -> Result<Set, Refusal> {
    let &[first, pitch, l1, l2, l3, l4, g2, g1, bandpass, fourier, aperiodic] = bytes else {
        return Err(Refusal::Parameter);
    };
    let voicing = match (first, pitch, bandpass, fourier, aperiodic) {
        (0, 0, 0, 0, 0) => None,
        (1, ..) => Some(Voicing {
            pitch,
            bandpass,
            fourier,
            aperiodic,
        }),
        _ => return Err(Refusal::Parameter),
    };
    Ok(Set {
        lsf: [l1, l2, l3, l4],
        g2,
        g1,
        voicing,
    })
}
