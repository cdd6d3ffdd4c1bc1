/** The worker that reads an archive or the text of a tree, so that a large one does not stop the page. */

import { answer } from './answering.mjs';
import { treeOfBytes } from './sources.mjs';

addEventListener('message', ({ data }) => answer(data, async (_, [file]) => (
  treeOfBytes(new Uint8Array(await file.arrayBuffer())))));
