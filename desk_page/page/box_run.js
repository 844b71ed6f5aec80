// Boxes put one call after another in many documents, and those that were put dropped again. Before its first box a document is
// looked at once more, and after each one: where it isn't as it was to be, the rest of its boxes is left.
import { freeNumber } from './boxes.js'
import { changeInWords, isAlike } from './changes.js'
import { NoAnswer, Refused } from './desk.js'
import { reasonOf } from './messages.js'
import { sameRectangle } from './rectangles.js'
import { Changed, NotNow } from './review.js'
import { whoIs } from './staff.js'
import { walk } from './walk.js'

export const MOST_BOXES = 1000 // of a document, by number

// what is refused of one box, and of one document; any other refusal ends the run, as it would come again
const OF_BOX = ['BoxOutside', 'BoxShape', 'NoPage']
const OF_DOCUMENT = ['WrongTreatment', 'NoDocument']

export const isRedact = ({ editor, treatment }) => editor !== 0 && treatment === 'Redact'

// what holds of one box alone
class OfBox extends NotNow {}

const isSame = (box, other) => box.page === other.page && box.basis === other.basis && sameRectangle(box, other)

// whether a document is as before, but for this box
function isBeside(before, now, made) {
  const own = now.boxes.find(({ num }) => num === made.num)
  const boxes = now.boxes.filter((box) => box !== own)
  const { editor, confirmer } = before
  return own !== undefined && isSame(own, made) && isAlike(before, { ...now, boxes, editor, confirmer })
}

export class BoxRun {
  constructor(review) {
    Object.assign(this, { review, made: [] })
  }

  // Puts `boxes` for a basis. `shown` has each document as somebody saw it. `refused` is told each box that isn't put, and why.
  // The answer is how many were put and tried, whether it was stopped, and the documents as they stand then.
  async put(boxes, basis, shown, { far, refused }) {
    const made = []
    this.made = made
    const stands = new Map()
    let at = {}
    const walked = await walk(boxes.length, async (k) => {
      const box = boxes[k]
      if (at.doc !== box.doc) at = { doc: box.doc }
      return this.tryOne(box, at, refused, async () => {
        at.now ??= await this.asShown(shown.get(box.doc))
        at.now = await this.putOne(box, basis, at.now, made)
        stands.set(box.doc, at.now)
      })
    }, (k) => far(k))
    return { ...walked, made: made.filter(({ isSure }) => isSure).length, stands: [...stands.values()] }
  }

  // Does the work for a box. Where its document was left, it is left too. Whether the run goes on.
  async tryOne(box, at, refused, work) {
    try {
      if (at.why !== undefined) throw at.why
      await work()
      return true
    } catch (why) {
      refused(box, reasonOf(why))
      const isOf = (rules) => why instanceof Refused && rules.includes(why.rule)
      if (!(why instanceof OfBox) && !isOf(OF_BOX)) at.why = why
      return why instanceof NotNow || isOf(OF_BOX) || isOf(OF_DOCUMENT)
    }
  }

  // nothing is sent where no box can be
  async asShown(shown) {
    if (!isRedact(shown)) throw new NotNow('The document isn’t called Redact.')
    const now = await this.review.lookAt(shown.doc)
    if (!isAlike(shown, now)) throw new Changed(changeInWords(shown, now))
    return now
  }

  async putOne({ doc, page, left, top, width, height }, basis, before, made) {
    const num = freeNumber(before.boxes)
    if (num > MOST_BOXES) throw new NotNow(`The document has its ${MOST_BOXES.toLocaleString('en')} boxes.`)
    const members = { num, page, left, top, width, height, basis }
    try {
      await this.review.make(doc, 'box', members)
    } catch (why) {
      if (why instanceof NoAnswer) made.push({ doc, ...members, isSure: false }) // it may stand
      throw why
    }
    made.push({ doc, ...members, isSure: true })
    const now = await this.review.lookAfter(doc)
    if (!isBeside(before, now, members)) throw new Changed(`Box ${num} was put, but: ${changeInWords(before, now)}`)
    return now
  }

  // Drops what the last run put, where it stands as it was put. `kept` is told each box that isn't dropped, and why.
  async undo({ far, kept }) {
    const boxes = this.made
    const left = new Set(boxes)
    let at = {}
    const walked = await walk(boxes.length, async (k) => {
      const box = boxes[k]
      if (at.doc !== box.doc) at = { doc: box.doc }
      return this.tryOne(box, at, kept, async () => {
        at.now ??= await this.review.lookAt(box.doc)
        at.now = await this.dropOne(box, at.now)
        left.delete(box)
      })
    }, (k) => far(k))
    this.made = [...left]
    return { ...walked, dropped: boxes.length - left.size }
  }

  async dropOne({ doc, num, ...as }, now) {
    if (now.confirmer !== 0) throw new NotNow(`It was confirmed since, by ${whoIs(now.confirmer)}: its boxes stay.`)
    const box = now.boxes.find((it) => it.num === num)
    if (box === undefined) throw new OfBox(`Box ${num} doesn’t stand any more.`)
    if (!isSame(box, as)) throw new OfBox(`Box ${num} isn’t as it was put.`)
    await this.review.make(doc, 'unbox', { num })
    return this.review.lookAfter(doc)
  }
}
