// SPDX-License-Identifier: BSD-3-Clause
// The page: its head, its views, and what is chosen in them.
import { count, make, many } from './text.js';
import { contentOf, unpacked } from './data.js';
import { changedIn, hitsOf, kindsOf, openOf, pairsOf } from './counts.js';
import { everything } from './filters.js';
import { answerOf } from './sentence.js';
import { rulesView } from './rules_view.js';
import { packetsView } from './packets_view.js';
import { timeView } from './time_view.js';
import { askView } from './ask_view.js';
import { twoListsView } from './two_lists_view.js';
import { refusalsView, remarksOf } from './refusals_view.js';
import { aboutView } from './about_view.js';
import { packetDetails, ruleDetails } from './side.js';
import { pairDetails } from './differences_view.js';
import { filesView, startLive } from './live.js';
import { startPrinting } from './print.js';
import { addressOf, restore } from './address.js';

const $ = (id) => document.getElementById(id);

class Page {
  constructor() {
    this.report = null;
    this.live = null;
    this.view = '';
    this.opened = null;
    this.isRestoring = false;
  }

  // Notes what is looked at in the address: as a step that the browser goes back to, or in place of the last one.
  remember(isStep) {
    const { hash } = globalThis.location;
    if (!this.report || this.isRestoring || addressOf(this) === hash) return;
    history[isStep && hash ? 'pushState' : 'replaceState'](null, '', addressOf(this));
  }

  // Shows what the address says. Whether it names a view.
  restore() {
    this.isRestoring = true;
    try {
      return restore(this, globalThis.location.hash);
    } finally {
      this.isRestoring = false;
    }
  }

  // Takes a report, and shows the first of its views.
  take(report) {
    this.report = report;
    this.filter = everything();
    this.category = 0;
    this.columns = new Set();
    this.asked = { protocol: '6', source: '', destination: '', from: '', to: '' };
    this.rules = { choice: 'all', order: 'line', search: '' };
    this.longestEnd = null;
    this.categories = report.categories;
    this.captures = report.files.filter((it) => it.role === 'capture');
    this.known = new Map();
    const { packets } = report;
    if (packets) {
      this.isChanged = packets.outcomes.map((_, outcome) => changedIn(report, outcome) >= 0);
    }
    this.keyed = packets ? packets.outcomes.reduce((sum, it) => sum + (it.kind >= 4 ? it.total : 0), 0) : 0;
    this.head();
    if (!this.restore()) this.go(this.views().find((it) => it.main)?.name ?? this.views()[0].name);
    $('said').textContent = report.list ? answerOf(this).join(' ') : 'Nothing could be shown: a list is refused.';
  }

  // How many packets each entry of a list decides in the category that is chosen.
  hits(list) {
    const name = `${list} ${this.category}`;
    if (!this.known.has(name)) this.known.set(name, hitsOf(this.report.packets, list, this.category));
    return this.known.get(name);
  }

  // The views that there is something for.
  views() {
    const { report } = this;
    const found = this.live ? [{ name: 'files', title: 'Files', show: () => filesView(this) }] : [];
    if (!report) return found;
    if (report.list) found.push({ name: 'rules', title: 'Rules', show: () => rulesView(this), main: true });
    if (report.packets?.total) {
      found.push({ name: 'packets', title: 'Packets', show: () => packetsView(this) }, { name: 'time', title: 'Time', show: () => timeView(this) });
    }
    if (report.list) found.push({ name: 'ask', title: 'What if', show: () => askView(this) });
    if (report.old) found.push({ name: 'lists', title: 'Two lists', show: () => twoListsView(this) });
    const bad = report.refusals.length;
    if (bad || remarksOf(report).length) found.push({ name: 'refusals', title: bad ? `Refused (${bad})` : 'Remarks', show: () => refusalsView(this), main: !report.list });
    return [...found, { name: 'about', title: 'About', show: () => aboutView(this) }];
  }

  head() {
    const { report } = this;
    const captures = this.captures.map((it) => it.name);
    const names = captures.length > 2 ? `${captures[0]} and ${captures.length - 1} more captures` : captures.join(' and ');
    const lists = report.files.filter((it) => it.role === 'list').map((it) => it.name);
    const title = captures.length && lists.length ? `What ${lists[0]} does with ${names}` : lists[0] ?? 'A list of rules';
    this.title = title;
    $('head').replaceChildren(make('h1', {}, title), make('p', { class: 'note' }, this.summary()), this.categoryChoice() ?? '');
    document.title = `aclc: ${title}`;
  }

  summary() {
    const { report } = this;
    const { packets } = report;
    const parts = [];
    if (packets?.total) {
      const kinds = kindsOf(packets);
      parts.push(`${many(packets.total, 'packet')}: ${count(kinds[4])} IPv4, ${count(kinds[6])} IPv6, ${count(kinds[0])} other, ${count(kinds[1])} short`);
    }
    if (report.old && packets?.total) parts.push(this.changedText());
    const open = openOf(report);
    if (open) parts.push(`${many(open, 'packet')} not decided, since lines were left out`);
    if (report.refusals.length) parts.push(`${many(report.refusals.length, 'file')} refused`);
    parts.push(`${report.made.version ? `aclc ${report.made.version}` : 'aclc'}, ${report.made.proof ? 'proved' : 'no proof known'}, ${report.made.when} UTC`);
    return parts.join(' · ');
  }

  changedText() {
    const { report } = this;
    const total = pairsOf(report).reduce((sum, it) => sum + it.total, 0);
    return `${count(total)} get${total === 1 ? 's' : ''} another answer than by ${report.old.name}`;
  }

  categoryChoice() {
    if (this.categories.length < 2) return null;
    const select = make('select', { id: 'category', onchange: (event) => {
      this.category = Number(event.target.value);
      this.go(this.view);
    } }, this.categories.map((it, place) => make('option', { value: place }, String(it))));
    select.value = this.category;
    return make('div', { class: 'tools' }, make('label', { for: 'category' }, 'Category'), select);
  }

  // Shows a view.
  go(name) {
    const views = this.views();
    const view = views.find((it) => it.name === name) ?? views[0];
    this.view = view.name;
    const { isRestoring } = this;
    this.isRestoring = true;
    this.close();
    this.isRestoring = isRestoring;
    $('tabs').replaceChildren(...views.map((it) => make('button', { type: 'button', role: 'tab', id: `tab-${it.name}`, 'aria-controls': 'view',
      'aria-selected': it === view ? 'true' : 'false', tabindex: it === view ? 0 : -1, onclick: () => this.choose(it.name) }, it.title)));
    $('view').setAttribute('aria-labelledby', `tab-${view.name}`);
    $('view').className = view.name;
    this.live?.showWork();
    this.remember(true);
    $('view').replaceChildren(...view.show().flat(2).filter(Boolean));
  }

  choose(name) {
    this.go(name);
    $(`tab-${this.view}`).focus();
  }

  // The arrow keys go from tab to tab.
  tabKey(event) {
    const views = this.views();
    const at = views.findIndex((it) => it.name === this.view);
    const to = { ArrowRight: at + 1, ArrowLeft: at - 1, Home: 0, End: views.length - 1 }[event.key];
    if (to === undefined) return;
    this.choose(views[(to + views.length) % views.length].name);
    event.preventDefault();
  }

  // Shows details beside the view.
  open(details, back) {
    this.back = back ?? document.activeElement;
    const close = make('button', { type: 'button', class: 'close', 'aria-label': 'Close the details', onclick: () => this.close(true) }, '×');
    $('side').replaceChildren(close, ...details.flat(9).filter(Boolean));
    $('side').hidden = false;
    $('said').textContent = $('side').querySelector('h2')?.textContent ?? '';
    $('body').classList.add('with-side');
    $('side').scrollIntoView({ block: 'nearest' });
  }

  close(focus) {
    this.opened = null;
    if ($('side').hidden) return;
    $('side').hidden = true;
    $('body').classList.remove('with-side');
    if (focus && this.back?.isConnected) this.back.focus();
    this.remember(false);
  }

  // Shows the details of what the keys lead to, if details are shown.
  follow(does) {
    if ($('side').hidden) return;
    const { back, isRestoring } = this;
    this.isRestoring = true;
    does();
    Object.assign(this, { back, isRestoring });
    this.remember(false);
  }

  openRule(place) {
    if (place < 0) {
      this.showRule(-1);
      return;
    }
    this.open(ruleDetails(this, place));
    this.opened = { rule: place };
    this.remember(true);
  }

  openPacket(at) {
    this.open(packetDetails(this, at));
    this.opened = { packet: at };
    this.remember(true);
  }

  // Opens a pair of lines of two lists by its name, if there is one.
  openLines(name) {
    const details = pairDetails(this, name);
    if (!details) return;
    this.open(details);
    this.opened = { lines: name };
    this.remember(true);
  }

  showFiltered(filter) {
    this.filter = { ...everything(), ...filter };
    this.choose('packets');
  }

  showRule(place) {
    this.showFiltered({ entry: String(place) });
  }

  showPair(pair) {
    this.showFiltered({ pair });
  }

  showRange(from, to) {
    this.filter = { ...this.filter, from, to };
    this.choose('packets');
  }
}

function fail(fault) {
  $('view').replaceChildren(make('p', { class: 'wrong', role: 'alert' }, `This page can’t be shown: ${fault.message ?? fault}`));
}

async function start() {
  const page = new Page();
  startPrinting(page);
  $('tabs').addEventListener('keydown', (event) => page.tabKey(event));
  addEventListener('popstate', () => page.restore());
  document.addEventListener('keydown', (event) => event.key === 'Escape' && page.close(true));
  const element = $('report');
  if (element) {
    page.take(unpacked(await contentOf(element)));
    element.remove();
  } else startLive(page);
  document.documentElement.dataset.ready = 'yes';
}

start().catch(fail);
