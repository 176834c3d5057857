// What the parts of a page give one another. Types alone: the page itself doesn't have this file.

/** @typedef {import("./history.js").History<any>} AnyHistory */

/**
 * A row of the page's text: a name, then numbers and texts (docs/FORMATS.md).
 * @typedef {[string, ...any[]]} Row
 */

/**
 * A message, from the event that sent it to the one that met it. Serials number all events of a script.
 * @typedef {object} Message
 * @property {number} number
 * @property {number} from
 * @property {number} to
 * @property {string} type
 * @property {number} term
 * @property {any[]} said
 * @property {Step} sent
 * @property {number} sentAt
 * @property {Step | null} met
 * @property {number} metAt
 * @property {"waiting" | "delivered" | "dropped" | "given up"} fate
 * @property {number | undefined} metTerm
 * @property {number} [start]
 * @property {number} [end]
 * @property {{ version: object, label: string, points: number[][] }} [drawn]
 */

/**
 * Something that a directive did. `id` is its node; `reasons` say why a message was ignored or refused, or which entries gave way.
 * @typedef {object} Event
 * @property {string} name
 * @property {number} id
 * @property {any[]} cells
 * @property {Message} [message]
 * @property {string[]} [reasons]
 * @property {string[]} [hints]
 */

/**
 * Events between two rows of changes, as those of one ready or one delivery: from `start` on. The changes are at this moment.
 * @typedef {{ start: number, moment: number }} Group
 */

/**
 * A piece of a comparison: a number of output lines that are as expected, or not; or an expected line that is missing.
 * @typedef {{ kind: "same" | "actual", count: number } | { kind: "expected", text: string }} Piece
 */

/**
 * A directive with what it did. `serial` is that of its first event; `before` and `moment` are when it begins and ends.
 * @typedef {object} Step
 * @property {number} place
 * @property {number} line
 * @property {number} first
 * @property {string[]} lead
 * @property {string[]} head
 * @property {string[]} input
 * @property {string[]} output
 * @property {Piece[] | null} pieces
 * @property {Event[]} events
 * @property {Group[]} groups
 * @property {number[]} changed
 * @property {Map<number, number>} stays
 * @property {string[]} warnings
 * @property {number} serial
 * @property {number} before
 * @property {number} moment
 */

/**
 * A node's numbers, as its row has them.
 * @typedef {object} Numbers
 * @property {string} role
 * @property {number} term
 * @property {number} vote
 * @property {number} lead
 * @property {number} commit
 * @property {number} applied
 * @property {number} durable
 * @property {number} length
 * @property {string} end
 */

/** @typedef {{ baseTerm: number, base: number, last: number }} Log */
/** @typedef {{ term: number, body: string }} Entry */

/**
 * A leader's view of a member.
 * @typedef {object} View
 * @property {string} state
 * @property {number} match
 * @property {number} next
 * @property {number} inFlight
 * @property {number} isWaiting
 * @property {number} pending
 * @property {number} isActive
 */

/**
 * A place in the script: a directive, from 1 on, and one of its events, from 1 on; 0 is the whole directive.
 * @typedef {{ place: number, event: number }} Position
 */

/**
 * What a part of the page does when another position is chosen, or another run is shown.
 * @typedef {{ choose(position: Position): void, replace(model: import("./rows.js").Model, position: Position): void }} Part
 */

export {};
