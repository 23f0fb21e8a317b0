//! A plugin for qemu-user, interface version 1: counts the instructions that the emulated program executes.
//!
//! Whenever the program calls sched_yield, the number executed since the last time goes into the file that the
//! plugin's argument `count=` names. The program may have one thread only.

use std::ffi::CStr;
use std::os::raw::{c_char, c_int, c_uint, c_void};
use std::sync::atomic::{AtomicU64, Ordering};
use std::sync::Mutex;

#[allow(non_upper_case_globals)]
#[no_mangle]
pub static qemu_plugin_version: c_int = 1;

/// The number of sched_yield on x86-64 Linux.
const SCHED_YIELD: i64 = 24;
/// qemu's number for the operation that adds to a counter of 64 bits.
const ADD: c_int = 0;

static EXECUTED: AtomicU64 = AtomicU64::new(0);
static FILE: Mutex<String> = Mutex::new(String::new());

#[repr(C)]
pub struct Block([u8; 0]);
#[repr(C)]
pub struct Instruction([u8; 0]);

type OnBlock = extern "C" fn(u64, *mut Block);
type OnSystemCall = extern "C" fn(u64, c_uint, i64, u64, u64, u64, u64, u64, u64, u64, u64);

extern "C" {
    fn qemu_plugin_register_vcpu_tb_trans_cb(plugin: u64, on_block: OnBlock);
    fn qemu_plugin_register_vcpu_syscall_cb(plugin: u64, on_call: OnSystemCall);
    fn qemu_plugin_tb_n_insns(block: *const Block) -> usize;
    fn qemu_plugin_tb_get_insn(block: *const Block, at: usize) -> *mut Instruction;
    fn qemu_plugin_register_vcpu_insn_exec_inline(to: *mut Instruction, add: c_int, counter: *mut c_void, by: u64);
}

/// What qemu calls first. Gives 0, or where the argument is missing 1, which ends qemu.
///
/// # Safety
/// `arguments` are `count` strings that end with a zero byte.
#[no_mangle]
pub unsafe extern "C" fn qemu_plugin_install(
    plugin: u64,
    _about: *const c_void,
    count: c_int,
    arguments: *const *const c_char,
) -> c_int {
    for at in 0..count as usize {
        let argument = CStr::from_ptr(*arguments.add(at)).to_string_lossy();
        if let Some(file) = argument.strip_prefix("count=") {
            *FILE.lock().unwrap() = file.to_string();
            qemu_plugin_register_vcpu_tb_trans_cb(plugin, count_block);
            qemu_plugin_register_vcpu_syscall_cb(plugin, report);
            return 0;
        }
    }
    1
}

/// Lets every instruction of a block that was just translated add 1.
extern "C" fn count_block(_plugin: u64, block: *mut Block) {
    let counter = &EXECUTED as *const AtomicU64 as *mut c_void;
    // SAFETY: qemu's own pointers, and a counter that lives as long as the process.
    unsafe {
        for at in 0..qemu_plugin_tb_n_insns(block) {
            qemu_plugin_register_vcpu_insn_exec_inline(qemu_plugin_tb_get_insn(block, at), ADD, counter, 1);
        }
    }
}

/// Before a system call: at sched_yield, writes the count and begins a new one.
#[allow(clippy::too_many_arguments)]
extern "C" fn report(_: u64, _: c_uint, call: i64, _: u64, _: u64, _: u64, _: u64, _: u64, _: u64, _: u64, _: u64) {
    if call == SCHED_YIELD {
        let executed = EXECUTED.swap(0, Ordering::Relaxed);
        std::fs::write(&*FILE.lock().unwrap(), executed.to_string()).expect("the count is written");
    }
}
