// Refusals in words, for the one who made the call: what is wrong, and what to do. The names are those of docs/STATUSES.md
// and docs/FORMATS.md (bp_web).
import { whoIs } from './staff.js'

const MEANINGS = {
  KeyUnknown: 'Nobody of the staff has this key. See that it was typed whole; else the lead has to give you one.',
  RoleRefused: 'Your role may not do this.',
  NoDocument: 'There is no document {a}.',
  NoPage: 'The document has no page {a}.',
  BoxOutside: 'The box leaves the page. Draw it inside.',
  BoxShape: 'The box is empty, or its number isn’t 1 to 1,000.',
  WrongTreatment: 'The document isn’t called Redact. Call it Redact first, then draw boxes and hold fields.',
  BoxesRemain: 'Boxes or held fields stand, so the document stays Redact. Drop the boxes and free the fields first.',
  BadBasis: 'A whole document is withheld for AC or WP alone.',
  NotCalled: 'Nobody has called this document yet, so there is nothing to confirm.',
  SamePerson: 'You edited this document last. Another person has to confirm it.',
  NothingRedacted: 'It is called Redact, but no box and no held field stands. Send it back, or call it Produce.',
  EntryMissing: 'What is held back for privilege (AC or WP) needs a log entry first.',
  NoField: 'The matter has no field of this name. Capital and small letters count.',
  TextRefused: 'A text is too long or has a character that it may not have: names, dates and recipients have up to 200 '
    + 'bytes, a description 1,000; a designation up to 40 of A to Z, 0 to 9, space, - _ and point.',
  RangeEmpty: 'From is 1 or more and at most To, and To is at most the number of documents.',
  SplitFamily: 'A family reaches outside the range: document {a} is of it. Widen the range to have all of it, or none.',
  Unsettled: 'Document {a} isn’t settled: it has to be called Produce, or confirmed by a second person, and so has each other '
    + 'one of the range that isn’t produced yet.',
  NothingResponsive: 'Nothing is left to produce: each family of the range is produced already, or has no responsive '
    + 'document.',
  RequestDiffers: 'This ID belongs to a production with other words. Take another ID.',
  BadPrefix: 'A prefix has 1 to 12 of A to Z, 0 to 9, - and _, no - at its front and no digit at its end; a number 4 to 10 '
    + 'digits.',
  PrefixDiffers: 'This prefix began with {a} digits. Take as many.',
  BatesFull: 'The numbers under this prefix end at {a}. Take another prefix.',
  BadVolume: 'An ID has 1 to 32 letters, digits, - and _; a volume the same without small letters.',
  VolumeTaken: 'Another production has this volume’s name. Take another.',
  FieldChoice: 'A field is chosen twice, or has the name of a column that each volume has.',
  TermRefused: 'A search takes 1 to 8 words in turn, each of 1 to 200 bytes and without signs that don’t print.',
  NoProduction: 'No production has this ID. Capital and small letters count.',
  StaffThere: 'The key belongs to {who} already. Take another key.',
  MatterFull: 'The matter is full: it takes no more of this kind.',
  HeadRefused: 'The desk couldn’t read the request. Tell the one who looks after the desks.',
  BodyRefused: 'The desk couldn’t read what was sent. Tell the one who looks after the desks.',
  BodyLimit: 'What was sent is too long.',
  KeyMissing: 'No key came to the desk. Tell the one who looks after the desks.',
  NoRoute: 'The desk knows no such request. Tell the one who looks after the desks.',
  JournalFull: 'The desks have taken as many calls as they can ({a}). Have them closed and started again.',
  KeeperFault: 'The desk’s disk refused to keep this. As a rule nothing changed: try again. If that is refused too, see to the '
    + 'disk, have the desks ended and opened again, and look: it may stand then.',
  OutOfMemory: 'The desk has too little memory for this, or for its answer. Look whether it stands; else try again.',
}

// What a refusal of the desk says: { name, a, .. }.
export function inWords({ name, a }) {
  const meaning = MEANINGS[name] ?? 'The desk refused this.'
  return `${meaning.replace('{a}', a.toLocaleString('en')).replace('{who}', whoIs(a))} (${name})`
}

// Answers that nginx made because none of a desk came, by their status.
const WITHOUT_DESK = {
  401: 'A password is asked for before the desks, and none that is known was given. Try again.',
  404: 'The way to the desks isn’t set up here.',
  413: 'What was sent is too long.',
  429: 'Too much was asked in a short time. Wait a moment.',
  502: 'No desk is open. Have one started.',
  503: 'Too much was asked in a short time. Wait a moment.',
  504: 'The desk took too long.',
}

export function withoutDesk(status) {
  return `${WITHOUT_DESK[status] ?? 'No desk answered.'} (${status})`
}
