/* Without it the library has the name of a temporary file, and the package other bytes each time. */
.file "forward.S"
/* Functions of the C library that are handed on to it in its newest version (forwarded.py says which). A
   function of this library takes the place of one that is here. */

/* An entry is a name and, from its first call on or before, the function. A jump keeps all arguments. */
.macro FORWARD name
    .section .rodata
.Lname\@:
    .string "\name"
    .section forwarded, "aw"
    .balign 16
.Lentry\@:
    .quad .Lname\@, 0
    .text
    .weak \name
    .type \name, @function
\name:
    endbr64
    movq 8 + .Lentry\@(%rip), %r11
    testq %r11, %r11
    jz .Lfirst\@
    jmp *%r11
.Lfirst\@:
    leaq .Lentry\@(%rip), %r11
    jmp forward_first
    .size \name, . - \name
.endm

    .text
/* Finds the function of the entry in r11, and keeps all arguments: six words, eight numbers, their count. */
    .type forward_first, @function
forward_first:
    pushq %rbp
    movq %rsp, %rbp
    .irp word, rdi, rsi, rdx, rcx, r8, r9, rax
    pushq %\word
    .endr
    subq $128, %rsp
    andq $-16, %rsp
    .irp k, 0, 1, 2, 3, 4, 5, 6, 7
    movups %xmm\k, 16 * \k(%rsp)
    .endr
    movq %r11, %rdi
    call find_forwarded
    movq %rax, %r11
    .irp k, 0, 1, 2, 3, 4, 5, 6, 7
    movups 16 * \k(%rsp), %xmm\k
    .endr
    leaq -56(%rbp), %rsp
    .irp word, rax, r9, r8, rcx, rdx, rsi, rdi
    popq %\word
    .endr
    leave
    jmp *%r11
    .size forward_first, . - forward_first

/* Names of ThreadSanitizer's library at which nothing is done, for the record has nothing of it, or that ask
   for what there isn't, as AnnotateBenignRace and __tsan_java_finalize. Whatever their words are, the answer
   is 0 or a null pointer. What the names of a line begin with stands before them. */
.macro NOTHING prefix, names:vararg
    .irp name, \names
    .globl \prefix\name
    .type \prefix\name, @function
\prefix\name:
    .endr
.endm
    NOTHING Annotate, BenignRace, BenignRaceSized, CondVarSignal, CondVarSignalAll, CondVarWait
    NOTHING Annotate, EnableRaceDetection, ExpectRace, FlushExpectedRaces, FlushState, IgnoreReadsBegin
    NOTHING Annotate, IgnoreReadsEnd, IgnoreSyncBegin, IgnoreSyncEnd, IgnoreWritesBegin, IgnoreWritesEnd
    NOTHING Annotate, MemoryIsInitialized, MemoryIsUninitialized, MutexIsNotPHB, MutexIsUsedAsCondVar
    NOTHING Annotate, NewMemory, NoOp, PCQCreate, PCQDestroy, PCQGet, PCQPut, PublishMemoryRange
    NOTHING Annotate, RWLockCreate, RWLockCreateStatic, RWLockDestroy, TraceMemory, UnpublishMemoryRange
    NOTHING WTFAnnotate, BenignRaceSized
    NOTHING __tsan_, external_assign_tag, external_register_header, external_register_tag, flush_memory
    NOTHING __tsan_, get_alloc_stack, get_current_report, ignore_thread_begin, ignore_thread_end
    NOTHING __tsan_, set_fiber_name, testonly_shadow_stack_current_size
    NOTHING __tsan_get_report_, data, loc, loc_object_type, mop, mutex, stack, tag, thread, unique_tid
    NOTHING __tsan_java_, finalize, find, fini, free, init
    NOTHING __tsan_mutex_, create, destroy, post_divert, post_signal, post_unlock, pre_divert, pre_lock
    NOTHING __tsan_mutex_, pre_signal
    NOTHING __sanitizer_, cov_8bit_counters_init, cov_bool_flag_init, cov_dump, cov_pcs_init, cov_reset
    NOTHING __sanitizer_, dump_coverage, dump_trace_pc_guard_coverage, get_module_and_offset_for_pc
    NOTHING __sanitizer_, get_report_path, get_unmapped_bytes, install_malloc_and_free_hooks
    NOTHING __sanitizer_, print_stack_trace, report_error_summary, sandbox_on_notify, set_death_callback
    NOTHING __sanitizer_, set_report_fd, set_report_path
    NOTHING __sanitizer_cov_trace_, cmp, cmp1, cmp2, cmp4, cmp8, const_cmp1, const_cmp2, const_cmp4
    NOTHING __sanitizer_cov_trace_, const_cmp8, div4, div8, gep, pc_guard, pc_guard_init, pc_indir, switch
    endbr64
    xorl %eax, %eax
    ret

#include "forwarded.inc"
    .section .note.GNU-stack, "", @progbits
