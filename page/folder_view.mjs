/** A tree folder by folder: what is in a folder is asked for when it is opened. */

import { make } from './dom.mjs';
import { counted } from './summary.mjs';

function contentElement({ text, size, isCut }) {
  const more = isCut ? `\nand more: ${counted(size, 'byte')} in all` : '';
  return make('pre', { class: 'content', tabindex: 0, text: text + more });
}

function goneElement() {
  return make('p', { class: 'note', text: 'The session has moved on, and this tree is no longer there.' });
}

function nameOf(path) {
  return path === '/' ? '' : path.slice(path.lastIndexOf('/') + 1);
}

/** Shows the tree of a line. `ask` returns a promise of an answer to `folder` and `file` of the looks. */
export class FolderView {
  constructor(line, ask) {
    this.line = line;
    this.ask = ask;
  }

  /** Returns a promise of the element of the root, which is open; null if there is no tree. */
  async root() {
    const found = await this.ask('folder', this.line, '/', 0);
    return found && this.element(found.entry, found);
  }

  async listInto(list, path, found, from) {
    list.append(...found.inside.map((entry) => make('li', {}, this.element(entry))));
    const rest = found.count - from - found.inside.length;
    if (rest <= 0) return;
    const more = make('button', { type: 'button', text: `${rest.toLocaleString('en')} more` });
    const row = make('li', {}, more);
    more.addEventListener('click', async () => {
      const next = from + found.inside.length;
      const answer = await this.asked('folder', path, next);
      row.remove();
      if (answer) this.listInto(list, path, answer, next);
      else list.append(make('li', {}, goneElement()));
    });
    list.append(row);
  }

  list(path, found) {
    const list = make('ul');
    this.listInto(list, path, found, 0);
    return list;
  }

  // Asks for a part of the tree; null if the session has moved on, and the tree is no longer there.
  async asked(what, ...given) {
    try {
      return await this.ask(what, this.line, ...given);
    } catch {
      return null;
    }
  }

  async inside(entry) {
    const isFile = entry.kind === 'f';
    const found = isFile ? await this.asked('file', entry.path) : await this.asked('folder', entry.path, 0);
    if (!found) return goneElement();
    return isFile ? contentElement(found) : this.list(entry.path, found);
  }

  // An entry of a tree, which opens by a click; one whose list is given is open.
  element(entry, found = null) {
    const isFolder = entry.kind === 'd';
    const count = isFolder ? '' : `, ${counted(entry.size, 'byte')}`;
    const inFolder = found ? `, ${counted(found.count, 'entry', 'entries')}` : '';
    const summary = make('summary', {},
      make('span', { class: 'path', text: `${nameOf(entry.path)}${isFolder ? '/' : ''}` }),
      make('span', { class: 'note', text: ` ${entry.mode} ${entry.owner}${count}${inFolder}` }));
    const details = make('details', { class: isFolder ? 'folder' : 'file' }, summary);
    if (found) {
      details.open = true;
      details.append(this.list(entry.path, found));
    }
    details.addEventListener('toggle', async () => {
      if (details.open && details.children.length === 1) details.append(await this.inside(entry));
    });
    return details;
  }
}
