// Who the people of the staff are: a desk tells them by numbers, and their names when it is asked for them. Nobody is taken
// out and no name changes, so that what was told once stays true; a number that isn't known yet has them asked for anew.

const people = new Map() // by their numbers: { name, role, staff }
const shared = new Set() // names that two of them have
let asking = null

export function learnStaff(rows) {
  for (const row of rows) {
    const other = [...people.values()].find(({ name, staff }) => name === row.name && staff !== row.staff)
    if (other !== undefined) shared.add(row.name)
    people.set(row.staff, row)
  }
}

// Has the names of these numbers asked for where one isn't known. Where no answer comes, a number stays one.
export async function knowStaff(looks, ...numbers) {
  const isKnown = () => numbers.every((number) => number === 0 || people.has(number))
  // somebody else's question may have gone before a person was taken in
  for (let tries = 0; tries < 2 && !isKnown(); tries += 1) {
    asking ??= looks.staff().then(learnStaff).finally(() => { asking = null })
    await asking.catch(() => {})
  }
}

// the name; with the number where two people have it
export function whoIs(number) {
  const name = people.get(number)?.name
  if (name === undefined) return `staff ${number}`
  return shared.has(name) ? `${name} (staff ${number})` : name
}
