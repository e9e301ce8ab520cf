//! The calls of the static library. This is all that is unsafe here.

use crate::error::Error;
use crate::fault::Fault;
use crate::numbers::{
    Accesses, NumberedFault, NumberedRow, NumberedStep, PartNode, Planned, Reason,
};
use std::ffi::c_void;
use std::ptr;
use std::sync::OnceLock;

/// How a call ended, as include/grove.h has it.
#[repr(C)]
struct Told {
    status: u32,
    length: usize,
}

const DONE: u32 = 0;
const REFUSED: u32 = 1;
const ROOM: u32 = 2;
const MEMORY: u32 = 3;

/// The room that a text is given at first, if the document is short.
const FIRST_ROOM: usize = 16_384;
/// So many bytes of room there are for each byte of a document, and no more than for the longest one. Answers seldom
/// need half as many, and the system gives no memory for what isn't written to.
const ROOM_EACH: usize = 32;
const LONGEST: usize = 4_194_304;

/// What a tree or a store is kept by. It is never copied.
#[repr(C)]
struct Handle {
    held: *mut c_void,
}

impl Handle {
    const NOTHING: Handle = Handle {
        held: ptr::null_mut(),
    };
}

/// A step by its kind and its number, what a plan costs and has, and what is said of one, as the header has them.
#[repr(C)]
#[derive(Clone, Copy)]
struct RawStep {
    kind: u32,
    number: u32,
}

#[repr(C)]
#[derive(Default)]
struct RawPlanned {
    cost: u64,
    steps: u32,
    rows: u32,
    place: u32,
}

#[repr(C)]
#[derive(Default)]
struct RawChecked {
    cost: u64,
    fault: u32,
    place: u32,
}

const LOCK: u32 = 0;
const UNLOCK: u32 = 1;
const ACCESS: u32 = 2;

type Call = unsafe extern "C" fn(*const u8, usize, *mut u8, usize) -> Told;
type KeptCall = unsafe extern "C" fn(*mut Handle, *const u8, usize, *mut u8, usize) -> Told;

unsafe extern "C" {
    fn grove_c_version() -> u32;

    fn grove_c_plan(document: *const u8, length: usize, text: *mut u8, room: usize) -> Told;
    fn grove_c_plan_document(
        document: *const u8,
        length: usize,
        text: *mut u8,
        room: usize,
    ) -> Told;
    fn grove_c_check(document: *const u8, length: usize, text: *mut u8, room: usize) -> Told;
    fn grove_c_judge(document: *const u8, length: usize, text: *mut u8, room: usize) -> Told;
    fn grove_c_draw_svg(document: *const u8, length: usize, text: *mut u8, room: usize) -> Told;
    fn grove_c_draw_text(document: *const u8, length: usize, text: *mut u8, room: usize) -> Told;
    fn grove_c_audit(document: *const u8, length: usize, text: *mut u8, room: usize) -> Told;

    fn grove_c_tree_build(
        tree: *mut Handle,
        parents: *const u32,
        parents_length: usize,
        weights: *const u32,
        weights_length: usize,
    ) -> u32;
    fn grove_c_tree_plan_nodes(
        tree: *mut Handle,
        nodes: *const u32,
        nodes_length: usize,
        lengths: *const u32,
        lengths_length: usize,
        steps: *mut RawStep,
        steps_room: usize,
        flow: *mut NumberedRow,
        flow_room: usize,
        planned: *mut RawPlanned,
    ) -> u32;
    fn grove_c_tree_check_nodes(
        tree: *mut Handle,
        nodes: *const u32,
        nodes_length: usize,
        lengths: *const u32,
        lengths_length: usize,
        steps: *const RawStep,
        steps_length: usize,
        flow: *const NumberedRow,
        flow_length: usize,
        checked: *mut RawChecked,
    ) -> u32;
    fn grove_c_tree_judge_nodes(
        tree: *mut Handle,
        nodes: *const u32,
        nodes_length: usize,
        lengths: *const u32,
        lengths_length: usize,
        steps: *const RawStep,
        steps_length: usize,
        checked: *mut RawChecked,
    ) -> u32;
    fn grove_c_tree_reweigh(
        tree: *mut Handle,
        waits: *const u32,
        waits_length: usize,
        weights: *mut u32,
        weights_room: usize,
        changed: *mut u32,
    ) -> u32;
    fn grove_c_tree_close(tree: *mut Handle);
    fn grove_c_plan_part(
        part: *const PartNode,
        part_length: usize,
        nodes: *const u32,
        nodes_length: usize,
        lengths: *const u32,
        lengths_length: usize,
        steps: *mut RawStep,
        steps_room: usize,
        flow: *mut NumberedRow,
        flow_room: usize,
        planned: *mut RawPlanned,
    ) -> u32;

    fn grove_c_store_open(
        store: *mut Handle,
        document: *const u8,
        length: usize,
        text: *mut u8,
        room: usize,
    ) -> Told;
    fn grove_c_store_answer(
        store: *mut Handle,
        line: *const u8,
        length: usize,
        text: *mut u8,
        room: usize,
    ) -> Told;
    fn grove_c_store_reply(store: *mut Handle, text: *mut u8, room: usize) -> Told;
    fn grove_c_store_close(store: *mut Handle);
}

/// The version of a library or of this crate: major, minor and patch.
type Version = (u8, u8, u8);

/// That of this crate.
const OWN: Version = (
    digits(env!("CARGO_PKG_VERSION_MAJOR")),
    digits(env!("CARGO_PKG_VERSION_MINOR")),
    digits(env!("CARGO_PKG_VERSION_PATCH")),
);

/// The number that a text of digits is.
const fn digits(text: &str) -> u8 {
    let (bytes, mut at, mut number) = (text.as_bytes(), 0, 0);
    while at < bytes.len() {
        number = 10 * number + (bytes[at] - b'0');
        at += 1;
    }
    number
}

/// Compares the library's version with the crate's, when it is first asked.
fn ready() -> Result<(), Error> {
    static LIBRARY: OnceLock<Version> = OnceLock::new();
    let library = *LIBRARY.get_or_init(|| {
        // SAFETY: it takes nothing, and returns a number.
        let [_, major, minor, patch] = unsafe { grove_c_version() }.to_be_bytes();
        (major, minor, patch)
    });
    if (library.0, library.1) == (OWN.0, OWN.1) {
        Ok(())
    } else {
        Err(Error::OtherVersion { library })
    }
}

/// A command, as the library has a call for it.
#[derive(Clone, Copy)]
pub(crate) enum Command {
    Plan,
    PlanDocument,
    Check,
    Judge,
    DrawSvg,
    DrawText,
    Audit,
}

impl Command {
    fn call(self) -> Call {
        match self {
            Command::Plan => grove_c_plan,
            Command::PlanDocument => grove_c_plan_document,
            Command::Check => grove_c_check,
            Command::Judge => grove_c_judge,
            Command::DrawSvg => grove_c_draw_svg,
            Command::DrawText => grove_c_draw_text,
            Command::Audit => grove_c_audit,
        }
    }

    /// What the command says of a document.
    pub(crate) fn say(self, document: &[u8]) -> Result<String, Error> {
        ready()?;
        let room = FIRST_ROOM.max(ROOM_EACH * document.len().min(LONGEST));
        text_of(room, |text| told(self.call(), document, text))
    }
}

/// The settled plan of accesses of places in a part, with the numbers that its nodes have. The part is a tree within
/// the limits, and the accesses are a list over it.
pub(crate) fn plan_part(
    part: &[PartNode],
    list: Accesses<'_>,
    wants_flow: bool,
) -> Result<Planned, Error> {
    ready()?;
    let mut room = Room::of(part.len(), list, wants_flow)?;
    let mut planned = RawPlanned::default();
    // SAFETY: the declarations above are those of include/grove.h. Pointers and lengths are those of slices that are
    // borrowed for the call, or of the room behind empty vectors that are this call's alone.
    let status = unsafe {
        grove_c_plan_part(
            part.as_ptr(),
            part.len(),
            list.nodes.as_ptr(),
            list.nodes.len(),
            list.lengths.as_ptr(),
            list.lengths.len(),
            room.steps.as_mut_ptr(),
            room.steps.capacity(),
            room.rows.as_mut_ptr(),
            room.rows.capacity(),
            &mut planned,
        )
    };
    room.planned(status, &planned)
}

/// Room for a plan and its flow.
struct Room {
    steps: Vec<RawStep>,
    rows: Vec<NumberedRow>,
    wants_flow: bool,
}

impl Room {
    /// As much as a plan over so many nodes may need: it locks none that isn't on the way down to an accessed node.
    fn of(nodes: usize, list: Accesses<'_>, wants_flow: bool) -> Result<Room, Error> {
        let locked = nodes.min(MOST_ON_A_WAY * list.nodes.len());
        Ok(Room {
            steps: buffer(2 * locked + list.nodes.len())?,
            rows: buffer(if wants_flow { locked } else { 0 })?,
            wants_flow,
        })
    }

    /// What a call that ended so has put here.
    fn planned(mut self, status: u32, planned: &RawPlanned) -> Result<Planned, Error> {
        match status {
            DONE => {}
            MEMORY => return Err(Error::NoMemory),
            other => unreachable!("status {other} of a list, with room for its longest plan"),
        }
        let (steps, rows) = (planned.steps as usize, planned.rows as usize);
        assert!(steps <= self.steps.capacity(), "it had no room for these");
        // SAFETY: there is room for so many, and a call that is done has written them.
        unsafe { self.steps.set_len(steps) };
        if self.wants_flow {
            assert!(rows <= self.rows.capacity(), "it had no room for these");
            // SAFETY: as above.
            unsafe { self.rows.set_len(rows) };
        }
        Ok(Planned {
            cost: planned.cost,
            steps: self.steps.into_iter().map(RawStep::read).collect(),
            rows: self.rows,
        })
    }
}

/// A tree is at most 32 deep, so a way down has as many nodes and its top.
const MOST_ON_A_WAY: usize = 33;

impl RawStep {
    #[inline]
    fn read(self) -> NumberedStep {
        match self.kind {
            LOCK => NumberedStep::Lock(self.number),
            UNLOCK => NumberedStep::Unlock(self.number),
            ACCESS => NumberedStep::Access(self.number),
            other => unreachable!("the library has no step of kind {other}"),
        }
    }

    fn of(step: &NumberedStep) -> RawStep {
        let (kind, number) = match *step {
            NumberedStep::Lock(node) => (LOCK, node),
            NumberedStep::Unlock(node) => (UNLOCK, node),
            NumberedStep::Access(number) => (ACCESS, number),
        };
        RawStep { kind, number }
    }
}

/// What steps cost, or why they aren't accepted.
pub(crate) type Said = Result<u64, NumberedFault>;

/// A tree that the library keeps, until it is dropped.
pub(crate) struct KeptTree {
    handle: Handle,
    nodes: usize,
}

// SAFETY: a handle may move to another thread between calls, and each call has it alone, by `&mut self`.
unsafe impl Send for KeptTree {}

impl KeptTree {
    /// The tree of nodes in preorder, by the numbers of their parents and their weights, unless it is too large or
    /// deep.
    pub(crate) fn build(parents: &[u32], weights: &[u32]) -> Result<Option<KeptTree>, Error> {
        ready()?;
        let mut tree = KeptTree {
            handle: Handle::NOTHING,
            nodes: parents.len(),
        };
        // SAFETY: as for a part; and the handle is this call's alone.
        let status = unsafe {
            grove_c_tree_build(
                &mut tree.handle,
                parents.as_ptr(),
                parents.len(),
                weights.as_ptr(),
                weights.len(),
            )
        };
        match status {
            DONE => Ok(Some(tree)),
            REFUSED => Ok(None),
            MEMORY => Err(Error::NoMemory),
            other => unreachable!("status {other} of a tree"),
        }
    }

    /// The settled plan of a list over it, without its flow.
    pub(crate) fn plan(&mut self, list: Accesses<'_>) -> Result<Planned, Error> {
        let mut room = Room::of(self.nodes, list, false)?;
        let mut planned = RawPlanned::default();
        // SAFETY: as for a part; and the handle is what the last call left, borrowed for this one alone.
        let status = unsafe {
            grove_c_tree_plan_nodes(
                &mut self.handle,
                list.nodes.as_ptr(),
                list.nodes.len(),
                list.lengths.as_ptr(),
                list.lengths.len(),
                room.steps.as_mut_ptr(),
                room.steps.capacity(),
                room.rows.as_mut_ptr(),
                room.rows.capacity(),
                &mut planned,
            )
        };
        room.planned(status, &planned)
    }

    /// What steps cost that are a legal plan, which rows prove to be least.
    pub(crate) fn check(
        &mut self,
        list: Accesses<'_>,
        steps: &[NumberedStep],
        rows: &[NumberedRow],
    ) -> Result<Said, Error> {
        let steps: Vec<RawStep> = steps.iter().map(RawStep::of).collect();
        let mut checked = RawChecked::default();
        // SAFETY: as above.
        let status = unsafe {
            grove_c_tree_check_nodes(
                &mut self.handle,
                list.nodes.as_ptr(),
                list.nodes.len(),
                list.lengths.as_ptr(),
                list.lengths.len(),
                steps.as_ptr(),
                steps.len(),
                rows.as_ptr(),
                rows.len(),
                &mut checked,
            )
        };
        checked.said(status)
    }

    /// What steps cost that are a legal plan.
    pub(crate) fn judge(
        &mut self,
        list: Accesses<'_>,
        steps: &[NumberedStep],
    ) -> Result<Said, Error> {
        let steps: Vec<RawStep> = steps.iter().map(RawStep::of).collect();
        let mut checked = RawChecked::default();
        // SAFETY: as above.
        let status = unsafe {
            grove_c_tree_judge_nodes(
                &mut self.handle,
                list.nodes.as_ptr(),
                list.nodes.len(),
                list.lengths.as_ptr(),
                list.lengths.len(),
                steps.as_ptr(),
                steps.len(),
                &mut checked,
            )
        };
        checked.said(status)
    }

    /// Makes new weights of the old ones and the waits, one for each node, puts them into a slice of as many, and gives
    /// how many have changed.
    pub(crate) fn reweigh(&mut self, waits: &[u32], weights: &mut [u32]) -> usize {
        assert!(waits.len() == self.nodes && weights.len() == self.nodes);
        let mut changed = 0;
        // SAFETY: as above.
        let status = unsafe {
            grove_c_tree_reweigh(
                &mut self.handle,
                waits.as_ptr(),
                waits.len(),
                weights.as_mut_ptr(),
                weights.len(),
                &mut changed,
            )
        };
        assert_eq!(status, DONE, "there are as many waits and weights as nodes");
        changed as usize
    }
}

impl RawChecked {
    /// What a call that ended so has told.
    fn said(&self, status: u32) -> Result<Said, Error> {
        match status {
            DONE => Ok(Ok(self.cost)),
            REFUSED => Ok(Err(NumberedFault {
                reason: Reason::of_number(self.fault).expect("the library has no other fault"),
                place: self.place,
                cost: self.cost,
            })),
            MEMORY => Err(Error::NoMemory),
            other => unreachable!("status {other}, though a handle holds a tree"),
        }
    }
}

impl Drop for KeptTree {
    fn drop(&mut self) {
        // SAFETY: the handle is what the last call left, and this is the last that has it.
        unsafe { grove_c_tree_close(&mut self.handle) }
    }
}

/// A store that the library has opened, until it is dropped.
pub(crate) struct KeptStore(Handle);

// SAFETY: as that of a tree.
unsafe impl Send for KeptStore {}

impl KeptStore {
    pub(crate) fn open(document: &[u8]) -> Result<KeptStore, Error> {
        ready()?;
        let mut store = KeptStore(Handle::NOTHING);
        text_of(FIRST_ROOM, |text| {
            told_kept(grove_c_store_open, &mut store.0, document, text)
        })?;
        Ok(store)
    }

    /// The reply to a line, which has its effect once.
    pub(crate) fn answer(&mut self, line: &[u8]) -> Result<String, Error> {
        let mut text = buffer(FIRST_ROOM)?;
        let told = told_kept(grove_c_store_answer, &mut self.0, line, &mut text);
        match told.status {
            ROOM => Ok(self.reply_of(told.length)),
            _ => said(told, text),
        }
    }

    /// The last reply once more.
    pub(crate) fn reply(&mut self) -> String {
        let told = self.told_reply(&mut Vec::new());
        self.reply_of(told.length)
    }

    /// The last reply, which has this length.
    fn reply_of(&mut self, length: usize) -> String {
        let mut text = Vec::with_capacity(length);
        let told = self.told_reply(&mut text);
        first(text, told.length)
    }

    fn told_reply(&mut self, text: &mut Vec<u8>) -> Told {
        // SAFETY: as below; the pointer and the room are those of a vector that is this call's alone.
        unsafe { grove_c_store_reply(&mut self.0, text.as_mut_ptr(), text.capacity()) }
    }
}

impl Drop for KeptStore {
    fn drop(&mut self) {
        // SAFETY: the handle is what the last call left, and this is the last that has it.
        unsafe { grove_c_store_close(&mut self.0) }
    }
}

/// What a call says that has so much room at first. If that is too little, the call is made once more.
fn text_of(mut room: usize, mut call: impl FnMut(&mut Vec<u8>) -> Told) -> Result<String, Error> {
    loop {
        let mut text = buffer(room)?;
        let told = call(&mut text);
        if told.status != ROOM {
            return said(told, text);
        }
        room = told.length;
    }
}

/// An empty vector with so much room.
fn buffer<T>(room: usize) -> Result<Vec<T>, Error> {
    let mut items = Vec::new();
    items.try_reserve_exact(room).map_err(|_| Error::NoMemory)?;
    Ok(items)
}

/// The text of a call that had room for it.
fn said(told: Told, text: Vec<u8>) -> Result<String, Error> {
    match told.status {
        DONE => Ok(first(text, told.length)),
        REFUSED => Err(Error::Refused(Fault::of(first(text, told.length)))),
        MEMORY => Err(Error::NoMemory),
        other => unreachable!("status {other}, though a handle holds what was opened"),
    }
}

fn told(call: Call, document: &[u8], text: &mut Vec<u8>) -> Told {
    // SAFETY: as for a part. The room is that of a vector that is this call's alone.
    unsafe {
        call(
            document.as_ptr(),
            document.len(),
            text.as_mut_ptr(),
            text.capacity(),
        )
    }
}

fn told_kept(call: KeptCall, handle: &mut Handle, given: &[u8], text: &mut Vec<u8>) -> Told {
    // SAFETY: as above; and the handle is what the last call left, borrowed for this one alone.
    unsafe {
        call(
            handle,
            given.as_ptr(),
            given.len(),
            text.as_mut_ptr(),
            text.capacity(),
        )
    }
}

/// The text of so many bytes that a call has put into the room of a vector.
fn first(mut bytes: Vec<u8>, length: usize) -> String {
    assert!(length <= bytes.capacity(), "it had no room for these");
    // SAFETY: there is room for so many, and a call that is done, or refuses, has written them.
    unsafe { bytes.set_len(length) };
    bytes.shrink_to_fit();
    String::from_utf8(bytes).expect("the library writes UTF-8")
}
