// What the office's words mean. Each sentence stands here alone: the tables of docs/policy.md are made of these by `tools/policy --write`,
// and those of docs/http.md and docs/documents.md by `web/test/unit --write`. So a sentence is written as those files are, and `plain` is it
// without their marks.

/**
 * A sentence of a document as plain text.
 * @param {string} sentence
 */
export const plain = (sentence) => sentence.replace(/\[([^\]]*)\]\([^)]*\)/g, '$1').replaceAll('`', '').replaceAll("'", '’');

export const ROLES = ['registrar', 'author', 'reviewer', 'security', 'issuer', 'machine'];

/**
 * The roles of which one is needed, and for which requests.
 * @type {[string[], string[]][]}
 */
export const NEEDED = [
  [['registrar'], ['enrol']],
  [['author'], ['submit']],
  [['reviewer'], ['vote']],
  [['issuer'], ['issue']],
  [['author', 'security'], ['withdraw']],
  [['security'], ['adopt', 'hold', 'release']],
  [['author', 'reviewer', 'security', 'issuer'], ['show', 'sheet', 'list', 'revisions']],
  [['machine'], ['fetch', 'issued']],
];

/**
 * The capabilities that give the most power, each with what a process may do by it; the greatest come first.
 * @type {[string, string][]}
 */
export const CAPS_DANGEROUS = [
  ['CAP_SYS_ADMIN', 'mounts, enters namespaces, and does much else of what root does'],
  ['CAP_SYS_MODULE', 'loads code into the kernel'],
  ['CAP_BPF', 'loads programs into the kernel'],
  ['CAP_SYS_RAWIO', 'reaches the memory and the ports of devices'],
  ['CAP_SYS_PTRACE', 'reads and changes the memory of other processes'],
  ['CAP_PERFMON', 'sees what the kernel and other processes do'],
  ['CAP_SYS_BOOT', 'restarts the machine, or starts another kernel'],
  ['CAP_MKNOD', 'makes device files, by which disks are read and written'],
  ['CAP_DAC_OVERRIDE', 'reads and writes any file, whatever its mode'],
  ['CAP_DAC_READ_SEARCH', 'reads any file, and opens files outside of its own tree by their handles'],
  ['CAP_SETUID', 'becomes any user, root too'],
  ['CAP_SETGID', 'becomes a member of any group'],
  ['CAP_SETFCAP', 'gives files capabilities, which whoever starts them gets'],
  ['CAP_CHOWN', 'changes the owner of any file'],
  ['CAP_FOWNER', 'changes the mode of any file'],
  ['CAP_MAC_ADMIN', 'changes the rules of a security module'],
  ['CAP_MAC_OVERRIDE', 'passes by the rules of a security module'],
  ['CAP_NET_ADMIN', 'changes interfaces, routes and firewalls'],
  ['CAP_NET_RAW', 'reads and forges packets of its network'],
  ['CAP_SYS_TIME', 'sets the clock of the whole machine'],
];

/**
 * The groups of calls that give the most power, each with what its calls do.
 * @type {[string, string][]}
 */
export const CALLS_DANGEROUS = [
  ['@module', 'they load code into the kernel'],
  ['@raw-io', 'they reach the memory and the ports of devices'],
  ['@mount', 'they change which files a process sees, and may lead out of its tree'],
  ['@debug', 'they read and change other processes, and look into the kernel'],
  ['@setuid', 'they change as whom a process acts'],
];

/**
 * Words in a row, the last behind `and` or another word.
 * @param {string[]} words
 */
export const listed = (words, last = 'and') =>
  (words.length < 2 ? words.join('') : `${words.slice(0, -1).join(', ')} ${last} ${words.at(-1)}`);

/**
 * Where each rule refuses; words that a table tells together stand together. Of the roles and the teams the office's definitions say more.
 * @type {[string[], string][]}
 */
export const RULES = [
  [['caller-unknown'], "no user's present digest is that of the token"],
  [['role-missing'], 'the caller lacks the role'],
  [['own-row'], 'the user to be enrolled is the caller'],
  [['team-fixed'], 'the user is enrolled already, in another team'],
  [['token-taken'], 'another user shows this digest now'],
  [['other-team'], 'the caller is of another team'],
  [['document'], "the document doesn't read; the answer names its fault"],
  [['same-as-open'], "the document's canonical text is that of the profile's open revision"],
  [['revisions-full'], 'the profile has 9,999 revisions'],
  [['no-revision'], 'the profile has no revision of this number'],
  [['author-votes', 'author-issues', 'author-adopts'], 'the caller is an author of the profile'],
  [['not-open'], "the revision isn't open"],
  [['other-bytes'], "the digest that the vote names isn't the revision's"],
  [['rejected'], 'a name rejects'],
  [['approvals-short'], 'fewer names approve than are needed; the answer has both numbers'],
  [['security-missing'], 'the need asks for an approval with security, and there is none'],
  [['not-standing'], 'the revision is neither open nor issued'],
  [['not-issued'], "the revision isn't issued"],
  [['nothing-issued'], 'no revision of the profile is issued now'],
  [['no-profile'], 'the profile has no revision'],
  [['already-held', 'not-held'], "the profile is held already; isn't held"],
  [['held'], 'the profile is held'],
];

/**
 * Each fault of a document: the text of the fault, and its cause.
 * @type {[string, string][]}
 */
export const DOCUMENT_FAULTS = [
  ['too-long', 'more than 262,144 bytes'],
  ['not-json', 'the bytes are no JSON text'],
  ['wrong-shape PATH', "a value of another kind than its place asks for, or a required member that isn't there"],
  ['unknown-member PATH', 'the object has no such member'],
  ['unknown-word PATH', 'a text that is no name of a capability, an action, an operator, an architecture or a flag'],
  ['not-in-profile PATH', "a part of the specification that documents here don't have: `SCMP_ACT_NOTIFY`, and `listenerPath` and "
    + '`listenerMetadata` of `seccomp`'],
  ['bad-number PATH', 'not a whole number from 0 to 18446744073709551615'],
  ['effective-outside N', 'capability N is effective and not permitted'],
  ['ambient-outside N', 'capability N is ambient, and not both permitted and inheritable'],
  ['too-many', 'more entries, architectures, flags, names or arguments than there may be'],
  ['errno-not-taken', 'an error number with an action that takes none'],
  ['errno-too-large', 'an error number above 65,535'],
  ['no-names', 'an entry without a name'],
  ['bad-call-name', "a name that isn't of the form"],
  ['bad-index', 'an index above 5'],
  ['index-twice', 'an index twice in one entry'],
  ['two-actions NAME', 'two entries have the name under different actions'],
  ['text-too-long', 'the canonical text has more than 262,144 bytes; one without a filter never has'],
];

/**
 * Each fault of the store: its word, what it says, what to do.
 * @type {[string, string, string][]}
 */
export const STORE_FAULTS = [
  ['memory', 'memory was refused before the request was handled or while it was', 'ask again; give the program more'],
  ['disk', 'the disk below the tables or the journal failed, or had failed and shut them; or SQLite refused the write',
    'look after the disk, and start `serve` anew'],
  ['full', 'there was no room for what was to be written, or a value was too big for a table', 'make room, and ask again'],
  ['not-an-office', "the tables are no office's: another program changed them",
    'put a copy back by `deploy/restore` ([operate.md](operate.md#copies-and-reports))'],
];

/**
 * What is no request, step by step: what has to be so, the status and the word.
 * @type {[string, string, string][]}
 */
export const NO_REQUEST = [
  ['the head, with the empty line that ends it, has at most 8,192 bytes', '400', '`head-too-long`'],
  ['it is a head of HTTP/1.0 or HTTP/1.1, of at most 64 fields', '400', '`bad-head`'],
  ['it has at most one `Host`, and one in HTTP/1.1', '400', '`bad-host`'],
  ['it has no `Transfer-Encoding`', '400', '`transfer-encoding`'],
  ['it has at most one `Content-Length`, which is digits alone; without one the body is empty', '400', '`bad-length`'],
  ['the body has at most 262,144 bytes', '413', '`too-large`'],
  ['the target is one of the routes', '404', '`no-route`'],
  ["the method is one of the target's, which `Allow` names", '405', '`wrong-method`'],
  ['there is one `Authorization` that shows a token', '400', '`no-token`'],
  ['the body comes whole', '', 'no answer; it prints `fault ended`'],
  ['the body is of the form of its route, or empty', '400', '`not-a-request`'],
];
