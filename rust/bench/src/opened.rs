//! The functions of include/cabinet.h in a shared object that is opened while the
//! program runs, so that two libraries with the same names stand side by side.
//!
//! Why the calls are sound: as in `cabinet::ffi`, whose declarations are written
//! again here as types. A type that differed would show where every call is held
//! against the reference before it is timed.

use std::ffi::{c_char, c_int, c_void, CStr, CString};
use std::fs;
use std::mem::transmute;
use std::os::unix::ffi::OsStrExt;
use std::path::Path;
use std::ptr;

use trials::doors::library::ffi::{CloseReply, NumberReply, RecordReply, Reply, ReportReply};
use trials::doors::{Call, Lent, Told};

/// RTLD_NOW and RTLD_LOCAL: every name is looked up at once, so that no call is
/// slowed by it, and the object's names are for nobody else.
const NOW_AND_LOCAL: c_int = 2;

/// What dladdr finds of an address: first the object that it lies in.
#[repr(C)]
struct Found {
    object: *const c_char,
    rest: [*const c_void; 3],
}

extern "C" {
    fn dlopen(path: *const c_char, flags: c_int) -> *mut c_void;
    fn dlsym(object: *mut c_void, name: *const c_char) -> *mut c_void;
    fn dlerror() -> *const c_char;
    fn dladdr(address: *const c_void, found: *mut Found) -> c_int;
}

/// An object that stays open to the program's end.
struct Object {
    handle: *mut c_void,
    path: CString,
}

impl Object {
    fn open(path: &Path) -> Result<Object, String> {
        // A whole path: dlopen would look for a bare name elsewhere.
        let whole = fs::canonicalize(path).map_err(|error| format!("{}: {error}", path.display()))?;
        let path = CString::new(whole.as_os_str().as_bytes()).expect("a path that is there has no 0");
        // dlerror tells a text where dlopen has just failed.
        unsafe {
            let handle = dlopen(path.as_ptr(), NOW_AND_LOCAL);
            if handle.is_null() {
                return Err(CStr::from_ptr(dlerror()).to_string_lossy().into_owned());
            }
            Ok(Object { handle, path })
        }
    }

    /// Where a function of the object begins. The object itself must have it: this
    /// program has linked functions of the same names.
    fn function(&self, name: &CStr) -> Result<*mut c_void, String> {
        let mut found = Found { object: ptr::null(), rest: [ptr::null(); 3] };
        // Where dladdr knows the address it has named the object.
        let own = unsafe {
            let address = dlsym(self.handle, name.as_ptr());
            let known = !address.is_null() && dladdr(address, &mut found) != 0;
            (known && CStr::from_ptr(found.object) == self.path.as_c_str()).then_some(address)
        };
        own.ok_or_else(|| {
            format!("{} has no {} of its own", self.path.to_string_lossy(), name.to_string_lossy())
        })
    }
}

/// The struct of the functions, and how each is found by its name.
macro_rules! functions {
    ($($field:ident: $name:literal fn($($kind:ty),*) -> $reply:ty;)*) => {
        struct Functions {
            $($field: unsafe extern "C" fn($($kind),*) -> $reply,)*
        }

        impl Functions {
            fn of(object: &Object) -> Result<Functions, String> {
                // Each address is that of the function which the header declares so.
                Ok(Functions { $($field: unsafe {
                    transmute::<*mut c_void, unsafe extern "C" fn($($kind),*) -> $reply>(object.function($name)?)
                },)* })
            }
        }
    };
}

functions! {
    check_table: c"cabinet_check_table" fn(*const u64, usize) -> Reply;
    fresh_common: c"cabinet_fresh_common" fn(*mut u64, usize) -> Reply;
    fresh_node: c"cabinet_fresh_node" fn(*const u64, usize, *mut u64, usize, u64) -> Reply;
    start: c"cabinet_start" fn(*const u64, usize, *mut u64, usize, u64) -> Reply;
    finish: c"cabinet_finish" fn(*const u64, usize, *mut u64, usize, u64) -> Reply;
    report: c"cabinet_report" fn(*const u64, usize, *mut u64, usize, u64) -> ReportReply;
    close: c"cabinet_close" fn(*const u64, usize, *mut u64, usize, u64, *const u64, usize, *const u64, usize) -> CloseReply;
    close_station: c"cabinet_close_station" fn(*const u64, usize, *mut u64, usize, u64, *const u64, usize, *const u64, usize) -> CloseReply;
    projection: c"cabinet_projection" fn(*const u64, usize, *const u64, usize, u64) -> Reply;
    bound: c"cabinet_bound" fn(*const u64, usize, *const u64, usize, u64, u64) -> Reply;
    order: c"cabinet_order" fn(*const u64, usize, *const u64, usize, *mut u64, usize) -> Reply;
    read_number: c"cabinet_read_number" fn(*const u8, usize) -> NumberReply;
    write_number: c"cabinet_write_number" fn(*mut u8, usize, u64) -> Reply;
    read_table: c"cabinet_read_table" fn(*const u8, usize, *mut u64, usize) -> Reply;
    read_record: c"cabinet_read_record" fn(*const u8, usize, *mut u64, usize, *mut u64, usize) -> RecordReply;
    write_record: c"cabinet_write_record" fn(*mut u8, usize, u64, *const u64, usize, *const u64, usize) -> Reply;
}

/// A library that was opened.
pub struct Opened {
    functions: Functions,
}

impl Opened {
    pub fn open(path: &Path) -> Result<Opened, String> {
        Ok(Opened { functions: Functions::of(&Object::open(path)?)? })
    }

    pub fn call(&self, call: Call, lent: &mut Lent) -> Told {
        let Lent { table, state, releases, entries, order, bytes } = lent;
        let [t, s, l, e, o] =
            [table, state, releases, entries, order].map(|words| (words.as_mut_ptr(), words.len()));
        let b = (bytes.as_mut_ptr(), bytes.len());
        let f = &self.functions;
        // Each pointer is that of a lent array, with its length.
        unsafe {
            match call {
                Call::CheckTable => (f.check_table)(t.0, t.1).into(),
                Call::FreshCommon => (f.fresh_common)(s.0, s.1).into(),
                Call::FreshNode { number } => (f.fresh_node)(t.0, t.1, s.0, s.1, number).into(),
                Call::Start { now } => (f.start)(t.0, t.1, s.0, s.1, now).into(),
                Call::Finish { now } => (f.finish)(t.0, t.1, s.0, s.1, now).into(),
                Call::Report { r } => (f.report)(t.0, t.1, s.0, s.1, r).into(),
                Call::Close { r } => (f.close)(t.0, t.1, s.0, s.1, r, l.0, l.1, e.0, e.1).into(),
                Call::CloseStation { r } => {
                    (f.close_station)(t.0, t.1, s.0, s.1, r, l.0, l.1, e.0, e.1).into()
                }
                Call::Projection { position } => (f.projection)(t.0, t.1, s.0, s.1, position).into(),
                Call::Bound { position, time } => (f.bound)(t.0, t.1, s.0, s.1, position, time).into(),
                Call::Order => (f.order)(t.0, t.1, s.0, s.1, o.0, o.1).into(),
                Call::ReadNumber => (f.read_number)(b.0, b.1).into(),
                Call::WriteNumber { number } => (f.write_number)(b.0, b.1, number).into(),
                Call::ReadTable => (f.read_table)(b.0, b.1, t.0, t.1).into(),
                Call::ReadRecord => (f.read_record)(b.0, b.1, l.0, l.1, e.0, e.1).into(),
                Call::WriteRecord { r } => (f.write_record)(b.0, b.1, r, l.0, l.1, e.0, e.1).into(),
            }
        }
    }
}
