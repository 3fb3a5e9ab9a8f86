// How the page is used: links, the address, keys, names, contrast, widths.
import { text, address, count, check, same, tools, hash, capability, STATES } from "./given.mjs";

export async function linksRestore(page) {
    for (const link of STATES) {
        await page.go(address + link);
        await page.run(tools);
        const first = await page.run(() => [dump(), linkTo(), new URLSearchParams(location.hash.slice(1)).toString()]);
        same(first[1].slice(1), first[2], `link of ${link}`);
        check(first[0].length > 300, `something is shown at ${link}`);
        const moved = await page.run(async (part) => {
            location.hash = "#show=request&base=77&length=88";
            await new Promise((done) => setTimeout(done, 20));
            const between = dump();
            location.hash = part;
            await new Promise((done) => setTimeout(done, 20));
            return [dump(), between];
        }, link);
        same(moved[0], first[0], `restored: ${link}`);
        check(moved[1] !== first[0], `another state between: ${link}`);
    }
    // The address follows what is typed, and the copied link is the address.
    await page.go(address);
    await page.run(tools);
    await page.run(() => {
        type("word", "ffff1ffffbffd0000000000000001000");
        type("to", "1800");
    });
    await new Promise((done) => setTimeout(done, 700));
    const now = await page.run(() => location.href);
    same(now, address + capability("ffff1ffffbffd0000000000000001000", { to: "1800" }), "the address follows");
    await page.browser.send("Browser.grantPermissions", { permissions: ["clipboardReadWrite", "clipboardSanitizedWrite"] });
    const copied = await page.run(async () => {
        document.getElementById("copy-link").focus();
        document.getElementById("copy-link").click();
        await new Promise((done) => setTimeout(done, 200));
        const link = document.getElementById("link");
        return [seen("said"), link.hidden ? await navigator.clipboard.readText().catch((problem) => `unread ${problem}`) : link.value];
    });
    check(copied[1] === now || copied[1].startsWith("unread"), `copied: ${copied}`);
    const denied = await page.run(async () => {
        Object.defineProperty(navigator, "clipboard", { value: { writeText: () => Promise.reject(new Error("no")) }, configurable: true });
        document.getElementById("copy-link").click();
        await new Promise((done) => setTimeout(done, 50));
        const link = document.getElementById("link");
        return [link.hidden, link.value === location.href, document.activeElement.id === "link" || link.selectionEnd === link.value.length];
    });
    same(denied, [false, true, true], "a link that can't be copied is shown");
    for (const strange of ["#show=nonsense", "#words", "#%%%", "#show=operation&do=nothing", "#show=capability&order=sideways&tag=7",
             "#=&=&show=__proto__", "#show=toString"]) {
        await page.go(address + strange);
        await page.run(tools);
        const got = await page.run(() => [results(), dump().length > 300, document.getElementById("fault").hidden]);
        same(got, [1, true, true], `strange link ${strange}`);
    }
}

export async function addressMoves(page) {
    await page.go(address + capability("003d1ffffc1a13910000000000013c08"));
    await page.run(tools);
    const box = await page.run(() => {
        const it = document.getElementById("range").getBoundingClientRect();
        return [it.left, it.top, it.width, it.height];
    });
    const mouse = (kind, part) => page.send(
        "Input.dispatchMouseEvent", { type: kind, x: box[0] + box[2] * part, y: box[1] + 90, button: "left", buttons: 1, clickCount: 1 });
    const state = () =>
        page.run(() => [document.getElementById("to").value, seen("to-says"), document.querySelectorAll("circle.lost").length,
                     document.getElementById("range").getAttribute("aria-valuetext")]);
    await mouse("mousePressed", 0.5);
    let [to, says, red] = await state();
    same([to, red], ["0000000000015000", 0], "pressed in the middle");
    await mouse("mouseMoved", 0.95);
    [to, says, red] = await state();
    same(red, 1, "dragged beyond the range: red");
    check(says.includes("loses the bounds") && says.includes("13 NotRepresentable") && says.includes("in clear mode the tag goes"),
        `beyond the range: ${says}`);
    check(await page.run(() => document.querySelectorAll(".ghost").length === 1), "the bounds that it would have are drawn");
    await mouse("mouseMoved", 0.3);
    [to, says, red] = await state();
    same(red, 0, "dragged back");
    await mouse("mouseReleased", 0.3);
    await mouse("mouseMoved", 0.9);
    same((await state())[0], to, "released: it stays");
    // By keys alone.
    await page.run(() => document.getElementById("range").focus());
    await page.key("End");
    same((await state())[0], "0000000000018fff", "End: the last address of the range");
    same((await state())[2], 0, "the last address keeps the bounds");
    await page.key("ArrowRight");
    same((await state()).slice(0, 1).concat((await state())[2]), ["0000000000019001", 1], "one unit on: red");
    same((await state())[3], "0x19001, loses the bounds", "a reader of screens hears it");
    await page.key("Home");
    same((await state()).slice(0, 1), ["0000000000011000"], "Home: the first");
    await page.key("ArrowLeft");
    same((await state())[2], 1, "one unit before: red");
    await page.key("PageUp");
    same((await state()).slice(0, 1), ["0000000000011ffe"], "PageUp: an eighth");
    same(await page.run(() => document.activeElement.id), "range", "the focus stays");
    await page.run(() => type("to", "19000"));
    same((await state())[2], 1, "typed: red");
    await page.run(() => document.getElementById("take").click());
    same(await page.run(() => [rows("lines").word.slice(16), document.getElementById("to").value]), ["0000000000019000", ""], "taken");
    // By touch.
    await page.go(address + capability("003d1ffffc1a13910000000000013c08"));
    await page.run(tools);
    await page.send("Emulation.setTouchEmulationEnabled", { enabled: true });
    const touch = (kind, part) => page.send(
        "Input.dispatchTouchEvent", { type: kind, touchPoints: part === null ? [] : [{ x: box[0] + box[2] * part, y: box[1] + 90 }] });
    await touch("touchStart", 0.3);
    await touch("touchMove", 0.5);
    await touch("touchMove", 0.6);
    await touch("touchMove", 0.95);
    // A browser hands touches on with its frames.
    for (let k = 0; k < 40 && (await state())[2] !== 1; k++) await new Promise((done) => setTimeout(done, 50));
    same((await state())[2], 1, "by touch: red");
    await touch("touchEnd", null);
    await page.send("Emulation.setTouchEmulationEnabled", { enabled: false });
}

export async function usableByKeys(page) {
    for (const link of [STATES[0], STATES[8], STATES[11], STATES[15]]) {
        await page.go(address + link);
        await page.run(tools);
        const wanted = await page.run(() => [...document.querySelectorAll(
            "button, input, textarea, select, summary, a[href], [tabindex='0']")]
                                                .filter((it) => visible(it) && !it.disabled && !(it.type === "radio" && !it.checked))
                                                .map((it) => it.id || it.dataset.view || it.dataset.term || it.name || it.textContent));
        const reached = [];
        for (let k = 0; k < wanted.length; k++) {
            await page.key("Tab");
            const [name, style, width, inside] = await page.run(() => {
                const it = document.activeElement;
                const { outlineStyle, outlineWidth } = getComputedStyle(it);
                return [
                    it.id || it.dataset.view || it.dataset.term || it.name || it.textContent, outlineStyle, parseFloat(outlineWidth),
                    it.matches(":focus-visible")
                ];
            });
            reached.push(name);
            check(inside && style !== "none" && width >= 2, `focus is seen at ${name}: ${style} ${width}`);
        }
        same(reached, wanted, `reached by Tab at ${link}`);
    }
    await page.go(address);
    await page.run(tools);
    for (let k = 0; k < 2; k++) await page.key("Tab");
    await page.key("Enter");
    same(await page.run(() => view), "request", "a view by Enter");
}

export async function everythingHasAName(page) {
    for (const link of [STATES[0], STATES[8], STATES[11], STATES[15]]) {
        await page.go(address + link);
        const { nodes } = await page.send("Accessibility.getFullAXTree");
        const roles = nodes.filter((it) => !it.ignored).map((it) => [it.role?.value, it.name?.value ?? ""]);
        const named =
            new Set(["textbox", "checkbox", "radio", "combobox", "button", "slider", "link", "image", "figure", "navigation", "region",
                "listbox", "progressbar"]);
        for (const [role, name] of roles)
            if (named.has(role)) check(name.trim() !== "", `${role} without a name at ${link}`);
        for (const role of ["banner", "main", "contentinfo", "navigation", "heading"])
            check(roles.some(([it]) => it === role), `${role} at ${link}`);
    }
    await page.run(tools);
    const labels =
        await page.run(() => [...document.querySelectorAll("input:not(#link):not(#file), textarea, select")].map(
            (it) => [it.id || it.value, it.labels.length]));
    for (const [name, count] of labels) same(count, 1, `labels of ${name}`);
    check(await page.run(() => document.documentElement.lang === "en" && document.title !== ""), "language and title");
    check(await page.run(() => [...document.querySelectorAll("[aria-describedby]")].every(
                             (it) => it.getAttribute("aria-describedby").split(" ").every((id) => document.getElementById(id)))),
        "descriptions are there");
}

/** The contrast of every text with what is below it, and of what is drawn with the paper. */
export const contrasts = () => {
    const parse = (colour) => colour.match(/[\d.]+/g).map(Number);
    const light = (colour) => {
        const [r, g, b] =
            parse(colour).slice(0, 3).map((it) => it / 255).map((it) => (it <= 0.04045 ? it / 12.92 : ((it + 0.055) / 1.055) ** 2.4));
        return 0.2126 * r + 0.7152 * g + 0.0722 * b;
    };
    const ratio = (one, other) => {
        const [dark, bright] = [light(one), light(other)].sort((a, b) => a - b);
        return (bright + 0.05) / (dark + 0.05);
    };
    const ground = (it) => {
        for (let at = it; at; at = at.parentElement) {
            const colour = getComputedStyle(at).backgroundColor;
            if (parse(colour)[3] !== 0) return colour;
        }
        return "rgb(255, 255, 255)";
    };
    const found = [];
    for (const it of document.querySelectorAll("body *")) {
        if (!visible(it)) continue;
        const style = getComputedStyle(it);
        const own = [...it.childNodes].some((node) => node.nodeType === 3 && node.textContent.trim() !== "");
        if (own || it.matches("input, textarea, select"))
            found.push([
                "text", it.tagName + (it.id || it.getAttribute("class") || ""),
                ratio(it instanceof SVGElement ? style.fill : style.color, ground(it)), 4.5
            ]);
        if (it.matches("input:not([type]), textarea, select, button:not(.term)"))
            found.push(["edge", it.id, ratio(style.borderTopColor, ground(it.parentElement)), 3]);
        if (it.placeholder) found.push(["placeholder", it.id, ratio(getComputedStyle(it, "::placeholder").color, ground(it)), 4.5]);
        const drawn = {
            rect: it.getAttribute("class") === "bounds" || it.getAttribute("class") === "asked" ? "fill" : "stroke",
            line: "stroke",
            circle: "fill"
        }[it.tagName];
        if (drawn && style[drawn] !== "none")
            found.push([drawn, it.getAttribute("class"), ratio(style[drawn], ground(it.closest("div"))), 3]);
        if (it.getAttribute("class") === "sign")
            found.push(["sign", "", ratio(style.stroke, getComputedStyle(it.previousSibling).fill), 3]);
    }
    return found;
};

export async function contrastSuffices(page) {
    let least = Infinity;
    for (const dark of ["light", "dark"]) {
        await page.scheme(dark);
        for (const link of [STATES[0], STATES[1], STATES[3], STATES[8], STATES[11], STATES.at(-1), capability("g")]) {
            await page.go(address + link);
            await page.run(tools);
            for (const [kind, name, ratio, wanted] of await page.run(contrasts)) {
                check(ratio >= wanted, `${dark} ${kind} ${name}: contrast ${ratio.toFixed(2)} below ${wanted}`);
                if (kind === "text") least = Math.min(least, ratio);
            }
        }
    }
    await page.scheme("light");
    return `least contrast of a text ${least.toFixed(2)}`;
}

/** Whether the page is as wide as the screen, which texts of drawings lie outside, and which on another. */
export const overlaps = () => {
    const boxes = [...document.querySelectorAll("svg text")]
                      .filter((it) => visible(it) && it.textContent)
                      .map((it) => [it.textContent, it.getBoundingClientRect(), it.closest("svg").getBoundingClientRect(),
                               it.closest("svg")]);
    const lie = boxes
                    .filter(([, box, frame]) =>
                                box.left < frame.left - 1 || box.right > frame.right + 1 || box.bottom > frame.bottom + 1)
                    .map(([name]) => name);
    const over = [];
    boxes.forEach(([name, a, , svg], k) => boxes.slice(k + 1).forEach(([other, b, , its]) => {
        if (svg === its && a.left < b.right - 1 && b.left < a.right - 1 && a.top < b.bottom - 3 && b.top < a.bottom - 3)
            over.push(`${name} on ${other}`);
    }));
    return [document.documentElement.scrollWidth <= innerWidth, lie, over];
};

/** No text of a drawing lies on another or outside, and the page isn't wider than the screen. */
export async function fitsTheScreen(page) {
    const more = [
        "ffff1ffffc0180010000000000000000", "ffff1ffffc0180020000000000000000", "ffff1ffff8007fffffffffffffffffff",
        "ffff1ffffbffdfff0000000000001fff", "ffff1ffffbffc000fffffffffffff7ff", "ffff1ffff80810000000000000001000",
        "ffff1ffffc01b002c000000000000000", "ffff1ffffc0210000000000000001000", "00001ffff8000000ffffffffffffffff",
        "ffffffffffffffffffffffffffffffff"
    ];
    for (const [width, height] of [[360, 800], [600, 800], [1000, 1200], [1280, 1000], [1600, 1200]]) {
        await page.size(width, height, width === 360);
        for (const link of [...STATES, ...more.map((word) => capability(word)), capability("g".repeat(300)),
                 hash({ show: "request", base: "fffffffffffff000", length: "1000" })]) {
            await page.go(address + link);
            await page.run(tools);
            const got = await page.run(overlaps);
            same(got, [true, [], []], `${width} pixels: ${link}`);
        }
    }
    await page.size(1000, 1200);
}
