// What is pressed, by the mouse or by keys, and what it does.
import { Keys, listKeys } from './keys.js'
import { act, asItStands, say, the } from './messages.js'
import { BLOCK } from './overview.js'
import { forgetLink, placeIn } from './place.js'
import { NotNow } from './review.js'
import { progressOf } from './states.js'
import { stopWalk, walk } from './walk.js'

const inDigits = (number) => number.toLocaleString('en')

export function listen({ review, overview, paper, boxes, documents, listing, list, finder, call, second, many, last, place, words, redact }) {
  const on = (id, work) => the(id).addEventListener('click', act(work))
  const turn = (by) => review.turn(review.page + by)
  const step = (by) => review.step(listing.next(review.doc.doc, by))
  on('page_before', () => turn(-1))
  on('page_after', () => turn(1))
  on('larger', () => paper.step(1))
  on('smaller', () => paper.step(-1))
  on('new_box', () => boxes.startByKeys())
  on('turn', () => paper.turn())
  on('mark', () => many.toggleMark())
  on('take_back', () => last.takeBack())
  on('show_many', () => many.open())
  on('show_finder', () => finder.open())
  on('show_list', () => list.open())
  on('leave', () => {
    clearTimeout(place.soon)
    leave()
  })
  on('show_keys', () => showKeys())
  on('close_keys', () => the('keys').close())
  on('look', () => lookAgain(review))
  the('go').addEventListener('submit', act((event) => {
    event.preventDefault()
    return openByNumber(review)
  }))
  window.addEventListener('hashchange', act(() => follow(review, place, finder)))
  window.addEventListener('beforeunload', (event) => {
    if (review.unsent().length > 0) event.preventDefault()
  })
  new Keys({
    j: () => step(1),
    k: () => step(-1),
    u: () => openUnsettled(review, overview),
    f: () => inList(finder, the('filter')),
    i: () => list.open(),
    '/': () => finder.open(),
    '.': () => (redact.isOpen() ? redact.list : finder).step(1),
    ',': () => (redact.isOpen() ? redact.list : finder).step(-1),
    hitAfter: () => finder.step(1),
    hitBefore: () => finder.step(-1),
    m: () => many.toggleMark(),
    x: () => many.open(),
    z: () => last.takeBack(),
    v: () => paper.turn(),
    o: () => inList(finder, the('go').elements.number),
    l: () => lookAgain(review),
    ArrowRight: () => turn(1),
    ArrowLeft: () => turn(-1),
    ArrowDown: () => the('sheet').scrollBy(0, 60),
    ArrowUp: () => the('sheet').scrollBy(0, -60),
    ' ': () => readOn(review, 1),
    'Shift ': () => readOn(review, -1),
    ShiftArrowRight: () => moveView(1, 0),
    ShiftArrowLeft: () => moveView(-1, 0),
    ShiftArrowDown: () => moveView(0, 1),
    ShiftArrowUp: () => moveView(0, -1),
    '+': () => paper.step(1),
    '=': () => paper.step(1),
    '-': () => paper.step(-1),
    0: () => paper.fitAs('width'),
    t: () => the('show_words').click(),
    y: () => call.setResponsive('yes'),
    n: () => call.setResponsive('no'),
    p: () => call.setTreatment('Produce'),
    r: () => call.setTreatment('Redact'),
    a: () => call.setTreatment('Withhold-AC'),
    w: () => call.setTreatment('Withhold-WP'),
    d: () => focusOn(the('call').elements.designation),
    g: () => focusOn(the('entry').elements.date),
    h: () => focusOn(the('hold').elements.field),
    b: () => boxes.startByKeys(),
    e: () => boxes.chooseNext(),
    1: () => boxes.rebase('AC'),
    2: () => boxes.rebase('WP'),
    3: () => boxes.rebase('PI'),
    4: () => boxes.rebase('TS'),
    q: () => redact.open(),
    ';': () => words.start(),
    Enter: () => (words.isChosen() ? words.put() : boxes.put()),
    Delete: () => boxes.dropChosen(),
    Backspace: () => boxes.dropChosen(),
    Escape: () => {
      if (stopWalk()) return
      words.clear()
      boxes.cancel()
    },
    c: () => second.askConfirm(),
    s: () => second.askBack(),
    '?': () => showKeys(),
    leaveField: () => the('sheet').focus(),
  }, { nudge: (...by) => words.nudge(...by) || boxes.nudge(...by) }, act)
  documents.begin()
}

// a field above the list of documents, in whose place hits may stand
function inList(finder, field) {
  finder.close()
  focusOn(field)
}

function focusOn(field) {
  field.focus()
  field.select?.()
}

function showKeys() {
  listKeys(the('key_table'))
  the('keys').showModal()
}

async function lookAgain(review) {
  await review.look()
  return asItStands(review.doc.doc)
}

async function openByNumber(review) {
  const { number } = the('go').elements
  const wanted = Number(number.value)
  if (!(wanted >= 1 && wanted <= review.count)) {
    throw new NotNow(`There are documents 1 to ${review.count.toLocaleString('en')}.`)
  }
  await review.open(wanted)
  number.value = ''
  the('sheet').focus()
}

// The next document that isn't settled. Before it is said that there is none, all are told once more.
async function openUnsettled(review, overview) {
  const from = review.doc.doc
  const found = nextUnsettled(review)
  if (found !== undefined) return review.open(found)
  const { blocks } = overview
  const { isStopped } = await walk(blocks.length, async (k) => {
    await overview.tell(blocks[k])
    return review.doc.doc === from && nextUnsettled(review) === undefined
  }, (k) => say(`Looking for one that isn’t settled: ${inDigits(BLOCK * k)} of ${inDigits(review.count)} documents. Escape stops.`))
  if (review.doc.doc !== from) return null
  const other = nextUnsettled(review)
  if (other !== undefined) return review.open(other)
  return isStopped ? 'Stopped: no document that isn’t settled was told so far.' : 'Every other document is settled.'
}

function nextUnsettled(review) {
  const from = review.doc.doc
  for (let k = 0; k < review.count - 1; k += 1) {
    const number = ((from + k) % review.count) + 1
    if (progressOf(review.rows.get(number)) !== 'settled') return number
  }
  return undefined
}

// a link that was followed while the page stands
async function follow(review, place, finder) {
  const wanted = placeIn(window.location.hash)
  try {
    if (wanted === null || wanted.number > review.count) throw new NotNow('The address names no document of this matter.')
    await review.open(wanted.number, wanted.page)
    await finder.follow(wanted.find)
  } finally {
    place.keepLink(review.doc.doc, review.page)
  }
}

export function leave() {
  forgetLink()
  window.location.reload()
}

// half of what is in sight over the page, also to its sides
function moveView(right, down) {
  const sheet = the('sheet')
  sheet.scrollBy((right * sheet.clientWidth) / 2, (down * sheet.clientHeight) / 2)
}

// most of a screen on, and at the end of the page to the next one
function readOn(review, by) {
  const sheet = the('sheet')
  const before = sheet.scrollTop
  sheet.scrollTop += by * sheet.clientHeight * 0.9
  if (Math.abs(sheet.scrollTop - before) > 1) return null
  return review.turn(review.page + by)
}
