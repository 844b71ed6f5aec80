// The page: it asks for a key, and puts the panels together. The key and all that was told are in the memory of this page
// alone, and are gone with it; where somebody was, is kept for the life of the tab.
import { Ahead } from './ahead.js'
import { Boxes } from './boxes.js'
import { CallForm } from './call_form.js'
import { ChosenWords } from './chosen_words.js'
import { leave, listen } from './controls.js'
import { Decoder } from './decoder.js'
import { Desk, isKey } from './desk.js'
import { DocName } from './doc_name.js'
import { Documents } from './documents.js'
import { EntryForm } from './entry_form.js'
import { Family } from './family.js'
import { Finder } from './finder.js'
import { keepFocus } from './focus.js'
import { Greys } from './greys.js'
import { HeldFields } from './held_fields.js'
import { LastCall } from './last_call.js'
import { ListDialog } from './list_dialog.js'
import { Listing } from './listing.js'
import { Looks } from './looks.js'
import { Many } from './many.js'
import { Marks } from './marks.js'
import { Me, MyName } from './me.js'
import { act, behind, keepUnsure, reasonOf, say, the } from './messages.js'
import { Names } from './names.js'
import { Overview } from './overview.js'
import { OutgoingPages } from './outgoing_pages.js'
import { Pages } from './pages.js'
import { Paper } from './paper.js'
import { People } from './people.js'
import { Place } from './place.js'
import { Productions } from './productions.js'
import { makeProductionsDialog } from './productions_dialog.js'
import { Receiver } from './receiver.js'
import { Redact } from './redact.js'
import { NotNow, Review } from './review.js'
import { ScreensPanel } from './screens_panel.js'
import { Search } from './search.js'
import { SecondReview } from './second_review.js'
import { knowStaff } from './staff.js'
import { inFull, isSameRow, lacksOf, progressOf, rowOf, signOf } from './states.js'

// ---- the panels

const decoder = new Decoder()
const productionsDialog = makeProductionsDialog()

function build(review, overview, place) {
  const { looks } = review
  const paper = new Paper(review, new Greys(decoder), {
    sheet: the('sheet'), paper: the('paper'), turned: the('turned'), ink: the('ink'), over: the('over'), size: the('size'),
  })
  review.prepare = (image, doc, page) => paper.prepare(image, doc, page)
  const boxes = new Boxes(review, paper, { list: the('boxes'), basis: the('basis'), showWords: the('show_words'), act })
  const words = new ChosenWords(review, boxes, paper, { showWords: the('show_words'), sheet: the('sheet'), act })
  const search = new Search(looks)
  const redact = new Redact(review, boxes, paper, { beside: the('doc_name'), doors: the('doors'), searched: () => search.text, act })
  new ScreensPanel(review, { doors: the('doors'), opened: (text) => redact.suggest(text), act })
  const { names, listing, documents, list } = buildList(review, overview, search, place)
  const finder = new Finder(review, search, {
    panel: the('finder'), place, marks: new Marks(review, paper, boxes, search, { behind }), names, documents, act, behind,
  })
  const call = new CallForm(review, { form: the('call'), known: the('designations'), act })
  const held = new HeldFields(review, { form: the('hold'), list: the('held'), act, behind })
  const entry = new EntryForm(review, { form: the('entry'), act })
  const second = new SecondReview(review, {
    dialog: the('ask'), summary: the('asked'), yes: the('yes'), no: the('no'),
    confirm: the('confirm'), back: the('back'), heldInLines: (doc) => held.inLines(doc), act,
  })
  const many = new Many(review, {
    dialog: the('many'), form: the('calls'), family: the('of_family'), marked: the('of_marked'), told: the('many_told'),
    refused: the('many_refused'), stop: the('stop_many'), close: the('close_many'), act,
  })
  const last = new LastCall(review)
  new DocName(review, names, { place: the('doc_name'), behind })
  new Family(review, { place: the('family'), act })
  new People(review, {
    dialog: the('people'), form: the('person'), handed: the('handed'), newKey: the('new_key'), show: the('show_people'),
    close: the('close_people'), act,
  })
  new Productions(review, productionsDialog, { pages: new OutgoingPages(review, { decoder, act }), show: the('show_productions'), act })
  review.addEventListener('doc', ({ detail }) => {
    showHead(detail)
    showOutdated(review)
  })
  review.addEventListener('unsure', ({ detail }) => keepUnsure(detail))
  review.addEventListener('aged', behind(() => review.refresh()))
  review.addEventListener('page', act(({ detail }) => showPlace(review, detail)))
  review.unsent = () => [
    ...(call.isUnsent() ? ['the call'] : []),
    ...(boxes.isUnsent() ? ['a box'] : []),
    ...(held.isUnsent() ? ['a held field'] : []),
    ...(entry.isUnsent() ? ['the log entry'] : []),
  ]
  review.addEventListener('page', () => place.keepLinkSoon(review.doc.doc, review.page))
  new Ahead(review, (number, by) => listing.next(number, by))
  return { review, overview, paper, boxes, documents, listing, list, finder, call, second, many, last, place, words, redact }
}

function buildList(review, overview, search, place) {
  const me = new Me(review, place)
  const names = new Names(review.looks, place)
  const listing = new Listing(review, { names, search, me })
  const documents = new Documents(review, listing, {
    list: the('documents'), tall: the('tall'), count: the('count'), filter: the('filter'), found: the('found_only'), names, act, behind,
  })
  const myName = new MyName(me, review.looks, { at: the('filter').closest('p'), behind })
  listing.addEventListener('change', () => myName.show(listing.filter === 'mine'))
  overview.inSight = () => documents.rows.keysInSight()
  overview.addEventListener('fault', () => {
    the('stale').hidden = overview.fault === null
    the('stale').textContent = overview.fault === null ? '' : `The list isn’t told anew: ${reasonOf(overview.fault)}`
  })
  review.addEventListener('states', async () => {
    const { editor, confirmer } = review.rows.get(review.doc?.doc) ?? { editor: 0, confirmer: 0 }
    await knowStaff(review.looks, editor, confirmer)
    showOutdated(review)
  })
  keepList(listing, place)
  return { names, listing, documents, list: new ListDialog(review, listing, { names, place, say, act }) }
}

// Marks aren't kept, so that a list of those that are marked isn't either; an order by a field would take a call each.
function keepList(listing, place) {
  const { filter = 'all', order = 'number', isBackward = false } = place.kept
  if (['number', 'state', 'changed'].includes(order)) listing.sort(order, isBackward)
  listing.choose(filter === 'marked' ? 'all' : filter)
  the('filter').addEventListener('change', () => place.keep({ filter: listing.filter }))
}

function showHead(doc) {
  const title = `Document ${doc.doc}`
  if (the('title').textContent !== title) the('title').closest('aside').scrollTop = 0
  the('title').textContent = title
  the('state').textContent = `${signOf(doc)} ${inFull(doc)}`
  the('state').className = progressOf(doc)
  const lacks = lacksOf(doc)
  the('lacks').textContent = lacks.length === 0 ? '' : `Needs ${lacks.join(', ')}.`
}

// what was told of many documents later than the open one was
function showOutdated({ doc, rows }) {
  const now = doc === null ? null : rows.get(doc.doc)
  const isOutdated = now !== null && !isSameRow(rowOf(doc, now), now)
  the('outdated').hidden = !isOutdated
  the('lacks').hidden = isOutdated
  the('outdated').textContent = isOutdated ? `It isn’t so any more. Now: ${inFull(now)} Look again (L).` : ''
}

async function showPlace(review, image) {
  the('place').textContent = `page ${review.page} of ${review.doc.pages}`
  the('page_before').disabled = review.page === 1
  the('page_after').disabled = review.page === review.doc.pages
  if (the('show_words').checked) the('show_words').dispatchEvent(new Event('change'))
  if (image.fault !== undefined) {
    throw new NotNow(`This page can’t be drawn (${image.fault}). Tell the one who looks after the desks.`)
  }
}

// ---- the key

keepFocus()

async function enter(key) {
  if (!isKey(key)) throw new NotNow('A key has letters, digits and signs of a plain keyboard alone.')
  const desk = new Desk(key)
  const review = new Review(desk, new Pages(desk, decoder), new Looks(desk))
  const overview = new Overview(review)
  // the panels are put together once, when a desk has taken the key
  try {
    await overview.tellAll((count) => { the('denied').textContent = `${count.toLocaleString('en')} documents so far.` })
  } catch (why) {
    if (why.rule !== 'RoleRefused') throw why
    return enterAsReceiver(desk)
  }
  const place = await Place.of(key)
  const { number, page, find } = place.begin()
  the('enter').hidden = true
  the('room').hidden = false
  const panels = build(review, overview, place)
  listen(panels)
  overview.begin()
  if (review.count === 0) throw new NotNow('The matter has no documents yet.')
  await review.open(Math.min(number, review.count), page)
  the('sheet').focus()
  await panels.finder.follow(find)
  return null
}

// no look is answered to a receiver alone
function enterAsReceiver(desk) {
  the('enter').hidden = true
  the('received').hidden = false
  document.title = 'Productions'
  the('leave_received').addEventListener('click', leave)
  return new Receiver(desk, decoder, {
    told: the('received_said'), form: the('open_volume'), again: the('list_again'), opened: the('opened'), head: the('volume_head'),
    manifest: the('manifest_sum'), sum: the('sent_sum'), same: the('same_sum'), intoFolder: the('into_folder'),
    asArchive: the('as_archive'), stop: the('stop_saving'), failed: the('not_saved'), folder: the('folder'), files: the('files'),
    shown: the('shown_file'), name: the('shown_name'), canvas: the('shown_image'), text: the('shown_text'),
  }).begin()
}

the('enter').addEventListener('submit', async (event) => {
  event.preventDefault()
  const { key, open } = event.target.elements
  open.disabled = true
  the('denied').textContent = ''
  try {
    await enter(key.value.trim())
  } catch (why) {
    const text = reasonOf(why)
    if (!the('enter').hidden) the('denied').textContent = `✗ ${text}`
    else say(text, true)
  }
  key.value = ''
  open.disabled = false
  if (!the('enter').hidden) key.focus()
})
