"""A small source in which refusals of memory are planted, to see that each value is found, and nothing else."""
from tools.lib.by_hand import faults_of, places_in
from tools.lib.findings import tell

# Each place that is to be found has its count in a comment behind the head of its function; what has none is to be found nowhere.
PLANTED = """\
//! NoMemory in a comment.

use std::alloc::{AllocError, AllocFailed};
use s4_types::{
    Name, NoMemory, Refusal,
};

/// Answers NoMemory.
pub type Other = AllocError;

/// A fault.
pub enum Fault {
    /// There is none.
    NoMemory,
}

const REFUSED: Reply = Reply::Refused(Refusal::NoMemory); // 1

impl From<AllocError> for Fault {
    fn from(_: AllocError) -> Fault {
        Fault::NoMemory
    }
}

impl<T: Drop> From<AllocFailed<T>> for Fault {
    fn from(_: AllocFailed<T>) -> Fault {
        Fault::NoMemory
    }
}

impl From<Other> for Fault {
    fn from(it: Other) -> Fault { // 1
        Fault::NoMemory
    }
}

pub fn types(fault: AllocError) -> Result<(), NoMemory>
    ensures { IfErr result (λ why. why ≡ fault.NoMemory) }
{
    let made: Result<u8, NoMemory> = Ok(1);
    let more = Vec::<AllocError>::new();
    let text = "NoMemory";
    let call = |_: AllocError| 1;
    Ok(())
}

pub fn patterns(fault: Fault) -> u8 {
    if let Err(Fault::NoMemory) = fault {
        return 1;
    }
    let Err(Refusal::NoMemory) = fault else {
        return 2;
    };
    match fault {
        Refusal::Exists | Refusal::NoMemory => 1,
        Err(Fault::NoMemory) if true => 2,
        (Fault::NoMemory, Named { why: Why::NoMemory, .. }) => 3,
        _ if matches!(fault, Some(Fault::NoMemory)) => 4,
        _ if fault == Err(Fault::NoMemory) => 5,
        _ => 6,
    }
}

pub fn tail(fault: Fault) -> Result<(), AllocError> { // 1
    Err(AllocError)
}

pub fn returned<T>(fault: Fault) -> Result<T, AllocError>
    requires { 0 < 1 }
{ // 2
    if true {
        return Err(AllocError);
    }
    fault.ok_or(AllocError)?;
    Ok(())
}

pub fn arms(fault: Fault) -> Fault { // 5
    match fault {
        Fault::NoMemory => Fault::NoMemory,
        Fault::Other => {
            let why = Why::NoMemory;
            Fault::Other
        }
        Fault::Third => Fault::Named {
            why: Why::NoMemory,
            more: 1,
        },
        Fault::Fourth => Fault::NoMemory,
        _ => io::Error::from(ErrorKind::OutOfMemory),
    }
}

impl Hall {
    fn method(&mut self) -> Result<(), Fault> { // 1
        self.call(|_| Fault::NoMemory, 1);
        match self.step() {
            Ok(it) => Ok(it),
            Err(Fault::NoMemory) => Ok(()),
        }
    }
}
"""
FOUND = {
    "planted::FaultFromOther::from": 1,
    "planted::tail": 1,
    "planted::returned": 2,
    "planted::arms": 5,
    "planted::Hall::method": 1,
    "planted/src/lib.rt": 1,
}


def self_test_of_places():
    """Reads what is planted. Returns whether each place is found so often as it stands there, and compared with a list as it should be."""
    wanted, found = FOUND, places_in("planted", "src/lib.rt", PLANTED)
    faults = [f"refusals: {found.get(it, 0)} planted refusals by hand are found in {it}, and not {wanted.get(it, 0)}"
              for it in sorted(set(found) | set(wanted)) if found.get(it) != wanted.get(it)]
    known = {it: (count, "it is planted") for it, count in wanted.items()}
    lists = [
        ("the same list", known, 0),
        ("a list without one", {it: known[it] for it in list(known)[1:]}, 1),
        ("a list with one more", known | {"planted::none": (1, "it is planted")}, 1),
        ("a list with another count", known | {"planted::tail": (2, "it is planted")}, 1),
        ("a list without a reason", known | {"planted::tail": (1, "")}, 1),
    ]
    faults += [f"refusals: {name} has {len(faults_of(wanted, it))} faults, and not {count}" for name, it, count in lists if len(faults_of(wanted, it)) != count]
    return tell(faults, f"refusals: {sum(wanted.values())} planted refusals by hand are found, and nothing else")
