/** What the page opens at its start: what its link carries, a build of its server, or what a reload finds. */

import { buildNamedBy, buildOf } from './build_link.mjs';
import { explained } from './faults.mjs';
import { reloaded } from './kept_state.mjs';
import { canBeDrawn } from './open_view.mjs';
import { definitionOf } from './reading.mjs';
import { refusalOf } from './session.mjs';
import { givenBy } from './share.mjs';

const OPEN = '#open';
// What a page without a link opens: an example in which each worker has done so many steps.
const LIVE = { name: 'workers', steps: 5 };

// How often the page was asked to open what its link carries. The last one wins, however long each takes.
let count = 0;

/**
 * Opens what the link of the page carries, or an example that runs if it carries nothing; shows the view *Open* if it
 * asks for that, or carries what can't be read.
 */
export async function openLink(page, machine) {
  page.say('');
  count += 1;
  const mine = count;
  const isAsked = () => count === mine;
  const name = buildNamedBy(location.hash);
  if (name !== null) {
    await openServed(page, machine, name, isAsked);
    return;
  }
  try {
    const given = location.hash === OPEN ? null : await givenBy(location.hash) ?? await reloaded();
    if (!isAsked()) return;
    if (given) await openGiven(page, machine, given, isAsked);
    else if (location.hash === OPEN || !await openBegun(page, isAsked)) page.openView.show();
  } catch (fault) {
    if (!isAsked()) return;
    const words = `The link is not readable: ${fault.message}. ${explained(fault.message)}`.trim();
    page.say(words);
    page.openView.show();
    page.openView.showFault(new Error(words));
  }
}

// Opens what a link carries; a definition that the machine refuses for its rows is drawn.
async function openGiven(page, machine, given, isAsked) {
  const { definition } = await definitionOf(machine, new TextEncoder().encode(given.text), true);
  if (!isAsked()) return;
  if (canBeDrawn(refusalOf(machine, definition))) await page.openForeign(definition);
  else await page.open({ ...given, definition, written: given.text });
}

async function openServed(page, machine, name, isAsked) {
  let build = null;
  try {
    build = await buildOf(machine, name);
    if (!isAsked()) return;
    if (refusalOf(machine, build.definition)) await page.openForeign(build.definition);
    else await page.openBuild(build);
  } catch (fault) {
    if (!isAsked()) return;
    const words = `The build ${name} can't be opened: ${fault.message}. ${explained(fault.message)}`.trim();
    page.say(words);
    if (build) page.openView.takeBuild(build);
    page.openView.show();
    page.openView.showFault(new Error(words));
  }
}

// Opens the example that runs; returns whether it is there and could be loaded.
async function openBegun(page, isAsked) {
  if (!page.openView.hasExample(LIVE.name)) return false;
  try {
    const given = await page.openView.exampleGiven(LIVE.name);
    if (isAsked()) await page.open({ ...given, steps: LIVE.steps });
    return true;
  } catch (fault) {
    page.say(`The example that is shown first can't be opened: ${fault.message}`);
    return false;
  }
}
