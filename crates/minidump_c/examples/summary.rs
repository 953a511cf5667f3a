//! Prints the crash that a minidump is of, with the frames of its thread: summary FILE
use std::process::ExitCode;

/// `struct minidump_span` of `minidump.h`.
#[repr(C)]
#[derive(Clone, Copy, Default)]
struct Span {
    offset: usize,
    len: usize,
}

/// `struct minidump_exception`.
#[repr(C)]
#[derive(Default)]
struct Exception {
    address: u64,
    nested: u64,
    parameters: [u64; 15],
    thread: u32,
    code: u32,
    flags: u32,
    parameter_count: u32,
    sender: u32,
    sender_user: u32,
    access: u16,
    context_problem: u16,
    has_exception: u8,
    is_sent: u8,
    has_sender: u8,
    has_sender_user: u8,
}

/// `struct minidump_facts`.
#[repr(C)]
#[derive(Default)]
struct Facts {
    address: u64,
    null_offset: u64,
    module_offset: u64,
    module: usize,
    unloaded: usize,
    stack_of: usize,
    below_stack: usize,
    memory_state: u32,
    has_address: u8,
    has_null_offset: u8,
    is_canonical: u8,
    has_module: u8,
    has_unloaded: u8,
    has_stack_of: u8,
    has_below_stack: u8,
    has_memory: u8,
    is_readable: u8,
    is_writable: u8,
    is_executable: u8,
    is_guarded: u8,
}

/// `struct minidump_crash`.
#[repr(C)]
#[derive(Default)]
struct Crash {
    exception: Exception,
    facts: Facts,
    uptime: u64,
    thread_index: usize,
    damage_count: usize,
    register_size: usize,
    frame_count: usize,
    register_count: usize,
    thread_count: usize,
    module_count: usize,
    unloaded_count: usize,
    texts_len: usize,
    reason: Span,
    version: Span,
    build: Span,
    cpu_model: Span,
    thread: u32,
    process_id: u32,
    written: u32,
    os: u16,
    cpu: u16,
    processors: u16,
    has_thread: u8,
    has_system: u8,
    has_process_id: u8,
    has_uptime: u8,
    context: u8,
    walk_end: u8,
}

/// `struct minidump_frame`.
#[repr(C)]
#[derive(Clone, Copy, Default)]
struct Frame {
    address: u64,
    instruction: u64,
    stack_pointer: u64,
    frame_pointer: u64,
    module: usize,
    module_offset: u64,
    trust: u32,
    has_frame_pointer: u16,
    has_module: u16,
}

/// `struct minidump_module`.
#[repr(C)]
#[derive(Clone, Copy, Default)]
struct Module {
    base: u64,
    end: u64,
    path: Span,
    version: Span,
    code_id: Span,
    debug_file: Span,
    debug_id: Span,
}

/// The version of `minidump.h` whose structs these are.
const VERSION: u32 = 6;

unsafe extern "C" {
    safe fn minidump_version() -> u32;
    fn minidump_crash(
        bytes: *const u8,
        len: usize,
        names: *const u8,
        names_len: usize,
        scan: usize,
        crash: &mut Crash,
        frames: *mut Frame,
        frames_len: usize,
        registers: *mut u8,
        registers_len: usize,
        threads: *mut u8,
        threads_len: usize,
        modules: *mut Module,
        modules_len: usize,
        unloaded: *mut u8,
        unloaded_len: usize,
        texts: *mut u8,
        texts_len: usize,
        line: &mut u64,
    ) -> u32;
    fn minidump_error_name(status: u32, out: *mut u8, out_len: usize) -> usize;
}

/// What of a crash is printed.
#[derive(Default)]
struct Summary {
    crash: Crash,
    frames: Vec<Frame>,
    modules: Vec<Module>,
    texts: Vec<u8>,
}

impl Summary {
    /// Reads the crash, with the tables as far as they fit; returns the status.
    fn read(&mut self, bytes: &[u8]) -> u32 {
        let (none, mut line) = (std::ptr::null_mut(), 0);
        // SAFETY: each pointer is to a slice or a number of this function, with its length, or NULL with a length of 0; none
        // overlaps another.
        unsafe {
            minidump_crash(
                bytes.as_ptr(),
                bytes.len(),
                none,
                0,
                8,
                &mut self.crash,
                self.frames.as_mut_ptr(),
                self.frames.len(),
                none,
                0,
                none,
                0,
                self.modules.as_mut_ptr(),
                self.modules.len(),
                none,
                0,
                self.texts.as_mut_ptr(),
                self.texts.len(),
                &mut line,
            )
        }
    }

    fn text(&self, span: Span) -> String {
        String::from_utf8_lossy(&self.texts[span.offset..span.offset + span.len]).into_owned()
    }

    fn place(&self, has_module: u8, module: usize, offset: u64) -> String {
        if has_module == 0 {
            return String::new();
        }
        let path = self.text(self.modules[module].path);
        let file = path.rsplit(['/', '\\']).next().unwrap_or_default();
        format!(" in {file}+{offset:#x}")
    }

    fn print(&self) {
        let (crash, facts) = (&self.crash, &self.crash.facts);
        if crash.has_thread != 0 {
            println!("thread  {}", crash.thread);
        }
        if facts.has_address != 0 {
            let near = if facts.has_null_offset != 0 { format!(", null + {:#x}", facts.null_offset) } else { String::new() };
            println!("address {:#x}{near}{}", facts.address, self.place(facts.has_module, facts.module, facts.module_offset));
        }
        if crash.reason.len != 0 {
            println!("reason  {}", self.text(crash.reason));
        }
        if crash.exception.has_sender != 0 {
            println!("sent by process {}", crash.exception.sender);
        }
        for (number, frame) in self.frames.iter().enumerate() {
            let place = self.place(frame.has_module as u8, frame.module, frame.module_offset);
            println!("#{number:<2}     {:#x}{place}, {}", frame.address, ["", "context", "frame pointer", "scan", "cfi", "link register"][frame.trust as usize]);
        }
        if crash.damage_count != 0 {
            println!("something of the dump can't be read");
        }
    }
}

fn main() -> ExitCode {
    let Some(path) = std::env::args().nth(1) else {
        eprintln!("usage: summary FILE");
        return ExitCode::from(2);
    };
    if minidump_version() != VERSION {
        eprintln!("the library is of another version");
        return ExitCode::from(2);
    }
    let bytes = match std::fs::read(&path) {
        Ok(bytes) => bytes,
        Err(error) => {
            eprintln!("{path}: {error}");
            return ExitCode::from(1);
        }
    };
    let mut summary = Summary::default();
    let mut status = summary.read(&bytes); // for the sizes
    if status == 0 {
        summary.frames = vec![Frame::default(); summary.crash.frame_count];
        summary.modules = vec![Module::default(); summary.crash.module_count];
        summary.texts = vec![0; summary.crash.texts_len];
        status = summary.read(&bytes);
    }
    if status != 0 {
        let mut name = [0; 32];
        // SAFETY: the pointer is to the buffer, with its length.
        let len = unsafe { minidump_error_name(status, name.as_mut_ptr(), name.len()) };
        eprintln!("{path}: {}", String::from_utf8_lossy(&name[..len.min(name.len())]));
        return ExitCode::from(1);
    }
    summary.print();
    ExitCode::SUCCESS
}
