// Requests to the desks. Each answer takes a place of the desks' journal, a look too, so that nothing is asked twice
// without need. They go one at a time, as a desk serves one exchange after another; what was pressed for goes before what
// the page asks for by itself.
import { inWords, withoutDesk } from './refusals.js'

// The desk refused: `rule` is its name, `a` the value that it names.
export class Refused extends Error {
  constructor(refusal) {
    super(inWords(refusal))
    this.rule = refusal.name
    this.a = refusal.a
  }
}

// No desk answered, and a call may have been made or not.
export class NoAnswer extends Error {}

const DESKS = 'desk'
const FILES = ['image/tiff', 'application/octet-stream']

// What a key may be made of: a field of HTTP carries these as they are, and blanks around them are dropped.
export const isKey = (text) => /^[!-~]([ -~]*[!-~])?$/.test(text)

export class Desk {
  // the key stands here and nowhere else
  #key
  #waiting = [] // what was pressed for comes first
  #isBusy = false

  constructor(key) {
    this.#key = key
  }

  // The answer to a look: JSON, or the bytes of a file. `isBehind`: nobody pressed for it.
  see(path, isBehind = false) {
    return this.#inTurn(path, isBehind, () => this.#exchange(path, { method: 'GET' }))
  }

  // The answer to a look that has members. It changes nothing, so that nothing is unknown where no desk answers.
  ask(path, members, isBehind = false) {
    const request = { method: 'POST', body: JSON.stringify(members) }
    return this.#inTurn(path, isBehind, () => this.#exchange(path, request))
  }

  // `unknown` is what to say where no desk answered; a call on a document has it said by what keeps it in mind
  make(path, members, unknown = '') {
    return this.ask(path, members).catch((why) => {
      if (why instanceof NoAnswer) why.message = `${why.message} ${unknown}`.trim()
      throw why
    })
  }

  // what was asked for behind is pressed for now
  hurry(path) {
    const at = this.#waiting.findIndex((it) => it.path === path && it.isBehind)
    if (at < 0) return
    const [it] = this.#waiting.splice(at, 1)
    this.#put({ ...it, isBehind: false })
  }

  #inTurn(path, isBehind, work) {
    return new Promise((resolve, reject) => {
      this.#put({ path, isBehind, work, resolve, reject })
      this.#goOn()
    })
  }

  #put(it) {
    const at = it.isBehind ? -1 : this.#waiting.findIndex(({ isBehind }) => isBehind)
    this.#waiting.splice(at < 0 ? this.#waiting.length : at, 0, it)
  }

  async #goOn() {
    if (this.#isBusy) return
    this.#isBusy = true
    while (this.#waiting.length > 0) {
      const { work, resolve, reject } = this.#waiting.shift()
      await work().then(resolve, reject)
    }
    this.#isBusy = false
  }

  async #exchange(path, request) {
    const answer = await this.#fetch(path, request)
    const kind = answer.headers.get('Content-Type') ?? ''
    if (answer.ok && FILES.includes(kind)) return new Uint8Array(await whole(answer))
    if (kind !== 'application/json') throw new NoAnswer(withoutDesk(answer.status))
    const told = JSON.parse(new TextDecoder().decode(await whole(answer)))
    if (!answer.ok) throw new Refused(told)
    return told
  }

  async #fetch(path, request) {
    // a password or certificate that nginx asks for goes to this origin, and nginx passes none on to a desk
    const same = { cache: 'no-store', credentials: 'same-origin', redirect: 'error', referrerPolicy: 'no-referrer' }
    try {
      return await fetch(DESKS + path, { ...same, ...request, headers: { 'Desk-Key': this.#key } })
    } catch {
      throw new NoAnswer('The connection failed.')
    }
  }
}

// an answer that is cut off is none
async function whole(answer) {
  try {
    return await answer.arrayBuffer()
  } catch {
    throw new NoAnswer('The connection failed.')
  }
}
