// What is said of a call: by a sign, by words, and by a colour.
import { NoAnswer, Refused } from './desk.js'
import { NotNow } from './review.js'

export const the = (id) => document.getElementById(id)

let isPressed = false // somebody pressed for what stands
let unsure = '' // of calls that may have been made or not: it stands beside whatever else is said

function show(text, isRefused) {
  the('said').textContent = `${isRefused ? '✗' : '✓'} ${text}${unsure}`
  the('said').classList.toggle('refused', isRefused || unsure !== '')
}

export function say(text, isRefused = false) {
  isPressed = true
  show(text, isRefused)
}

export const asItStands = (doc) => `Document ${doc} as it stands now.`

// From now on said beside all else: on which documents a call may have been made or not. `seen` is one that was such, and
// was looked at just now.
export function keepUnsure({ docs, seen }) {
  const them = docs.map((doc) => `document ${doc}`).join(' and on ')
  unsure = docs.length === 0 ? '' : ` It isn’t known whether a call of yours on ${them} was made: look again (L).`
  if (seen !== undefined) say(asItStands(seen))
}

// a reason in words; what is no refusal is a fault of the page, and goes to the console too
export function reasonOf(why) {
  if (why instanceof Refused || why instanceof NoAnswer || why instanceof NotNow) return why.message
  console.error(why)
  return `The page has a fault: ${why.message}`
}

// work that a press starts: what it answers is said, and why it failed
export const act = (work) => async (event) => {
  try {
    const text = await work(event)
    if (typeof text === 'string') say(text)
  } catch (why) {
    say(reasonOf(why), true)
  }
}

// Work that nobody pressed for, as a look at the rows in sight: why it failed takes the place of no press's words.
export const behind = (work) => async (event) => {
  try {
    await work(event)
  } catch (why) {
    const text = reasonOf(why)
    if (!isPressed) show(text, true)
  }
}
