// A page that is viewed turned by quarter turns, clockwise. Places are shares of its width and height, from 0 to 1; the page
// itself, its boxes and what goes out stay as they are.

const TO_PAGE = [
  (x, y) => [x, y],
  (x, y) => [y, 1 - x],
  (x, y) => [1 - x, 1 - y],
  (x, y) => [1 - y, x],
]

// where on the page a place of the view is, and the other way round
export const onPage = (turns, x, y) => TO_PAGE[turns](x, y)
export const inView = (turns, x, y) => TO_PAGE[(4 - turns) % 4](x, y)

export const isOnSide = (turns) => turns % 2 === 1

// a step on the screen, along the page's own sides
const STEPS = [
  (right, down) => ({ x: right, y: down }),
  (right, down) => ({ x: down, y: -right }),
  (right, down) => ({ x: -right, y: -down }),
  (right, down) => ({ x: -down, y: right }),
]
export const stepOnPage = (turns, right, down) => STEPS[turns](right, down)

// wider on the screen is higher on a page that lies on its side
export const growthOnPage = (turns, right, down) => (isOnSide(turns) ? { x: down, y: right } : { x: right, y: down })

// how a page of so many points is turned within the place that it takes then
export function transformOf(turns, width, height) {
  const places = [[0, 0], [height, 0], [width, height], [0, width]]
  const [left, top] = places[turns]
  return turns === 0 ? 'none' : `translate(${left}px, ${top}px) rotate(${90 * turns}deg)`
}
