// The kinds of calls: the groups of `systemd-analyze syscall-filter` of systemd 252, each call in the first of them that has it.

/**
 * Each kind: the group of systemd, what it is called here, and its calls.
 * @type {[string, string, string][]}
 */
export const KINDS = [
  ['@module', 'Kernel modules',
    'delete_module finit_module init_module'],
  ['@raw-io', 'Raw access to devices',
    'ioperm iopl pciconfig_iobase pciconfig_read pciconfig_write s390_pci_mmio_read s390_pci_mmio_write'],
  ['@reboot', 'Reboot and kexec',
    'kexec_file_load kexec_load reboot'],
  ['@swap', 'Swap',
    'swapoff swapon'],
  ['@mount', 'Mounts and roots',
    'chroot fsconfig fsmount fsopen fspick mount mount_setattr move_mount open_tree pivot_root umount umount2'],
  ['@debug', 'Debugging and tracing',
    'lookup_dcookie perf_event_open pidfd_getfd ptrace rtas s390_runtime_instr sys_debug_setcontext'],
  ['@cpu-emulation', 'Emulation of old processors',
    'modify_ldt subpage_prot switch_endian vm86 vm86old'],
  ['@clock', 'Setting clocks',
    'adjtimex clock_adjtime clock_adjtime64 clock_settime clock_settime64 settimeofday'],
  ['@setuid', 'Changing user and group ids',
    'setgid setgid32 setgroups setgroups32 setregid setregid32 setresgid setresgid32 setresuid setresuid32 setreuid '
    + 'setreuid32 setuid setuid32'],
  ['@chown', 'Changing the owners of files',
    'chown chown32 fchown fchown32 fchownat lchown lchown32'],
  ['@keyring', 'Keys of the kernel',
    'add_key keyctl request_key'],
  ['@privileged', 'Other calls that need privileges',
    '_sysctl acct bpf capset fanotify_init fanotify_mark nfsservctl open_by_handle_at quotactl quotactl_fd setdomainname '
    + 'setfsuid setfsuid32 sethostname vhangup'],
  ['@obsolete', 'Obsolete calls',
    'afs_syscall bdflush break create_module ftime get_kernel_syms getpmsg gtty idle lock mpx prof profil putpmsg '
    + 'query_module security sgetmask ssetmask stime stty sysfs tuxcall ulimit uselib ustat vserver'],
  ['@resources', 'Priorities and limits',
    'ioprio_set mbind migrate_pages move_pages nice sched_setaffinity sched_setattr sched_setparam sched_setscheduler '
    + 'set_mempolicy set_mempolicy_home_node setpriority setrlimit'],
  ['@memlock', 'Locking memory',
    'mlock mlock2 mlockall munlock munlockall'],
  ['@pkey', 'Memory protection keys',
    'pkey_alloc pkey_free pkey_mprotect'],
  ['@process', 'Processes and namespaces',
    'capget clone clone3 execveat fork getrusage kill pidfd_open pidfd_send_signal prctl rt_sigqueueinfo rt_tgsigqueueinfo '
    + 'setns swapcontext tgkill times tkill unshare vfork wait4 waitid waitpid'],
  ['@ipc', 'Messages and shared memory',
    'ipc memfd_create mq_getsetattr mq_notify mq_open mq_timedreceive mq_timedreceive_time64 mq_timedsend '
    + 'mq_timedsend_time64 mq_unlink msgctl msgget msgrcv msgsnd pipe pipe2 process_madvise process_vm_readv '
    + 'process_vm_writev semctl semget semop semtimedop semtimedop_time64 shmat shmctl shmdt shmget'],
  ['@network-io', 'Network',
    'accept accept4 bind connect getpeername getsockname getsockopt listen recv recvfrom recvmmsg recvmmsg_time64 recvmsg '
    + 'send sendmmsg sendmsg sendto setsockopt shutdown socket socketcall socketpair'],
  ['@aio', 'Asynchronous input and output',
    'io_cancel io_destroy io_getevents io_pgetevents io_pgetevents_time64 io_setup io_submit io_uring_enter '
    + 'io_uring_register io_uring_setup'],
  ['@file-system', 'Files and folders',
    'access chdir chmod close creat faccessat faccessat2 fallocate fchdir fchmod fchmodat fchmodat2 fcntl fcntl64 fgetxattr '
    + 'flistxattr fremovexattr fsetxattr fstat fstat64 fstatat64 fstatfs fstatfs64 ftruncate ftruncate64 futimesat getcwd '
    + 'getdents getdents64 getxattr inotify_add_watch inotify_init inotify_init1 inotify_rm_watch lgetxattr link linkat '
    + 'listxattr llistxattr lremovexattr lsetxattr lstat lstat64 mkdir mkdirat mknod mknodat newfstatat oldfstat oldlstat '
    + 'oldstat open openat openat2 readlink readlinkat removexattr rename renameat renameat2 rmdir setxattr stat stat64 '
    + 'statfs statfs64 statx symlink symlinkat truncate truncate64 unlink unlinkat utime utimensat utimensat_time64 utimes'],
  ['@io-event', 'Waiting for events',
    '_newselect epoll_create epoll_create1 epoll_ctl epoll_ctl_old epoll_pwait epoll_pwait2 epoll_wait epoll_wait_old '
    + 'eventfd eventfd2 poll ppoll ppoll_time64 pselect6 pselect6_time64 select'],
  ['@basic-io', 'Reading and writing',
    '_llseek close_range dup dup2 dup3 lseek pread64 preadv preadv2 pwrite64 pwritev pwritev2 read readv write writev'],
  ['@sync', 'Writing back to disks',
    'fdatasync fsync msync sync sync_file_range sync_file_range2 syncfs'],
  ['@signal', 'Signals',
    'rt_sigaction rt_sigpending rt_sigprocmask rt_sigsuspend rt_sigtimedwait rt_sigtimedwait_time64 sigaction sigaltstack '
    + 'signal signalfd signalfd4 sigpending sigprocmask sigsuspend'],
  ['@timer', 'Timers',
    'alarm getitimer setitimer timer_create timer_delete timer_getoverrun timer_gettime timer_gettime64 timer_settime '
    + 'timer_settime64 timerfd_create timerfd_gettime timerfd_gettime64 timerfd_settime timerfd_settime64'],
  ['@default', 'What nearly each program calls',
    'arch_prctl brk cacheflush clock_getres clock_getres_time64 clock_gettime clock_gettime64 clock_nanosleep '
    + 'clock_nanosleep_time64 execve exit exit_group futex futex_time64 futex_waitv get_robust_list get_thread_area getegid '
    + 'getegid32 geteuid geteuid32 getgid getgid32 getgroups getgroups32 getpgid getpgrp getpid getppid getrandom getresgid '
    + 'getresgid32 getresuid getresuid32 getrlimit getsid gettid gettimeofday getuid getuid32 membarrier mmap mmap2 mprotect '
    + 'munmap nanosleep pause prlimit64 restart_syscall riscv_flush_icache riscv_hwprobe rseq rt_sigreturn sched_getaffinity '
    + 'sched_yield set_robust_list set_thread_area set_tid_address set_tls sigreturn time ugetrlimit uretprobe'],
  ['@system-service', 'Other calls of services',
    'arm_fadvise64_64 copy_file_range fadvise64 fadvise64_64 flock get_mempolicy getcpu getpriority ioctl ioprio_get kcmp '
    + 'madvise mremap name_to_handle_at oldolduname olduname personality readahead readdir remap_file_pages '
    + 'sched_get_priority_max sched_get_priority_min sched_getattr sched_getparam sched_getscheduler sched_rr_get_interval '
    + 'sched_rr_get_interval_time64 sendfile sendfile64 setfsgid setfsgid32 setpgid setsid splice sysinfo tee umask uname '
    + 'userfaultfd vmsplice'],
  ['@known', 'Other calls',
    'arc_gettls arc_settls arc_usr_cmpxchg atomic_barrier atomic_cmpxchg_32 cachectl dipc exec_with_loader execv '
    + 'futex_requeue futex_wait futex_wake getdomainname getdtablesize gethostname getpagesize getxgid getxpid getxuid '
    + 'kern_features landlock_add_rule landlock_create_ruleset landlock_restrict_self map_shadow_stack memfd_secret '
    + 'memory_ordering mincore multiplexer old_adjtimex oldumount or1k_atomic osf_fstat osf_fstatfs osf_fstatfs64 '
    + 'osf_getdirentries osf_getdomainname osf_getitimer osf_getrusage osf_getsysinfo osf_gettimeofday osf_lstat osf_mount '
    + 'osf_proplist_syscall osf_select osf_set_program_attributes osf_setitimer osf_setsysinfo osf_settimeofday osf_shmat '
    + 'osf_sigprocmask osf_sigstack osf_stat osf_statfs osf_statfs64 osf_swapon osf_syscall osf_sysinfo osf_usleep_thread '
    + 'osf_utimes osf_utsname osf_wait4 perfctr process_mrelease s390_guarded_storage s390_sthyi sched_get_affinity '
    + 'sched_set_affinity seccomp sethae setpgrp spu_create spu_run syscall syslog sysmips timerfd utrap_install'],
];

/** @type {Map<string, number>} */
const PLACES = new Map(KINDS.flatMap(([, , calls], place) => calls.split(' ').map((call) => [call, place])));

/**
 * These calls by their kinds, in the order of the kinds; those of none come last.
 * @param {string[]} calls
 * @returns {{ group: string, title: string, calls: string[] }[]}
 */
export function byKind(calls) {
  const none = { group: '', title: 'Calls that systemd 252 doesn’t know', calls: [] };
  const found = KINDS.map(([group, title]) => ({ group, title, calls: [] }));
  for (const call of calls) (found[PLACES.get(call) ?? -1] ?? none).calls.push(call);
  return [...found, none].filter((kind) => kind.calls.length);
}
