// Finds pages and sections by the words of their titles. PAGES has [title, path from the site's root] for each.
"use strict";
const root = document.documentElement.dataset.root;
const field = document.getElementById("search");
const found = document.getElementById("found");
const menu = document.getElementById("menu");

const matches = (words, title) => words.every((word) => title.toLowerCase().includes(word));

const show = () => {
    const words = field.value.toLowerCase().split(/\s+/).filter(Boolean);
    menu.hidden = words.length > 0;
    found.hidden = words.length === 0;
    found.replaceChildren();
    for (const [title, path] of words.length ? PAGES.filter(([title]) => matches(words, title)).slice(0, 40) : []) {
        const line = document.createElement("li");
        const link = line.appendChild(document.createElement("a"));
        link.href = root + path;
        link.textContent = title;
        found.append(line);
    }
    if (words.length && !found.firstChild) found.textContent = "No page or section has these words in its title.";
};

field.hidden = false;
field.addEventListener("input", show);
// On a wide screen the menu is always open.
const wide = matchMedia("(min-width: 52rem)");
const fold = () => { document.getElementById("pages").open = wide.matches; };
wide.addEventListener("change", fold);
fold();
