// How elements are made. What the server says comes in as text alone: nothing here, or anywhere in the page, reads markup.

const SVG = "http://www.w3.org/2000/svg";

function fill(element, attributes, children) {
  for (const [name, value] of Object.entries(attributes)) {
    if (name.startsWith("on")) element.addEventListener(name.slice(2), value);
    else if (value === true) element.setAttribute(name, "");
    else if (value !== false && value !== null && value !== undefined) element.setAttribute(name, value);
  }
  element.append(...children.filter((child) => child !== null && child !== undefined));
  return element;
}

/** An element with attributes, listeners (`onclick`) and children; a child that is a string becomes a text. */
export const make = (name, attributes = {}, ...children) => fill(document.createElement(name), attributes, children);

/** The same for a drawing. */
export const draw = (name, attributes = {}, ...children) => fill(document.createElementNS(SVG, name), attributes, children);

/** What a report or an operator wrote: set apart, so that its direction changes nothing around it. */
export const told = (text, attributes = {}) => make("bdi", { dir: "auto", ...attributes }, text);

export const byId = (id) => document.getElementById(id);

export function setText(element, text) {
  if (element.textContent !== text) element.textContent = text;
}
