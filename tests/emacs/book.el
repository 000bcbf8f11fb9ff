;;; book.el --- made-up order books, the same for the same seed  -*- lexical-binding: t; -*-

;; Usage: emacs --batch -Q -l book.el --eval '(book-write "FILE" SEED)'
;; A book has headings of several levels, planning lines, property drawers (some not where they count, some broken),
;; drawers and blocks inside each other, tables with formulas, comments, fixed-width areas, rules, keywords, text, and
;; lists with all of these but keywords in their items.
;; It has nothing on which org-element is known to differ (README.md).

(defvar book-state 1)

(defun book-below (bound)
  "A number below BOUND."
  (setq book-state (mod (+ (* book-state 1103515245) 12345) 2147483648))
  (mod (/ book-state 65536) bound))

(defun book-pick (&rest choices)
  "One of CHOICES."
  (nth (book-below (length choices)) choices))

(defun book-times (least more make)
  "What MAKE makes, LEAST times and up to MORE times again."
  (let ((text ""))
    (dotimes (_ (+ least (book-below (1+ more))) text)
      (setq text (concat text (funcall make))))))

(defun book-words ()
  (string-trim-right
   (book-times 3 9 (lambda () (concat (book-pick "boost" "held" "at" "1.2" "bar;" "the" "customer" "wants" "torque" "a|b" "x:y:" "C#" "+5") " ")))))

(defun book-blank ()
  (book-pick "" "" "\n" "\n\n" " \t\n"))

(defun book-text ()
  (book-times 1 3 (lambda () (concat (book-pick "" "" "  " "\t") (book-words) (book-pick "" "" " ") "\n"))))

(defun book-table ()
  (concat (book-times 1 4 (lambda () (book-pick "| part | 4 |\n" "|------+---|\n" "  | x |\n" "|\n")))
          (book-pick "" "" "#+TBLFM: $2=1\n" "#+tblfm: $2=1\n#+TBLFM: $1=2\n")))

(defun book-block (depth drawers)
  "A block; its name is not one of those around it, whose closer would be its own."
  (let ((name (book-pick (nth depth '("quote" "Center" "note")) (nth depth '("OUTER" "middle" "Inner")) "src" "example" "export" "comment" "verse")))
    (concat "#+begin_" name (if (equal name "export") " html" (book-pick "" " one two")) "\n"
            (if (member name '("src" "example" "export" "comment" "verse"))
                (book-times 0 3 (lambda () (concat (book-words) "\n")))
              (book-elements (1+ depth) drawers))
            "#+end_" name "\n")))

(defun book-drawer (depth)
  (concat (book-pick ":NOTES:" ":Log_1:" "  :a-b:" ":PROPERTIES:") "\n" (book-elements (1+ depth) nil) (book-pick ":END:" "  :end:") "\n"))

(defun book-bullet (indentation)
  (concat (make-string indentation ?\s)
          (if (and (> indentation 0) (= (book-below 5) 0)) "*" (book-pick "-" "-" "-" "+" "1." "2)" "10." "a." "B)"))
          (book-pick " " " " "  ") (book-pick "" "" "" "[@3] " "[@c] ") (book-pick "" "" "" "[ ] " "[X] " "[-] ")))

(defun book-sheltered (margin pair)
  "A block or drawer of the markers PAIR; its lines after the first stand at MARGIN or at the line's start."
  (let ((later (book-pick "" margin)))
    (concat margin (car pair) "\n"
            later (book-words) "\n"
            (book-pick "" (concat "\n\n" later "- " (book-words) "\n"))
            later (cdr pair) "\n")))

(defun book-held (indentation drawers)
  "What an item holds below its first line, but lists."
  (let ((margin (make-string indentation ?\s)))
    (pcase (book-below (if drawers 9 8))
      ((or 0 1) (concat margin (book-words) "\n"))
      (2 (concat "\n" margin (book-words) "\n"))
      (3 (concat margin "| part | 4 |\n" margin "|------+---|\n" (book-pick "" (concat margin "#+TBLFM: $2=1\n"))))
      (4 (concat margin (book-pick "# a remark" ": fixed" "-----" "----" "#+begin_never") "\n"))
      (5 (book-sheltered margin '("#+begin_src" . "#+end_src")))
      ((or 6 7) (book-sheltered margin '("#+begin_listed" . "#+end_listed")))
      (_ (book-sheltered margin '(":NOTES:" . ":END:"))))))

(defun book-list (indentation drawers)
  "Items. No blank line stands before one where a list ends: org-element would give it to that list."
  (let ((items "") (ends nil))
    (dotimes (_ (1+ (book-below 3)) items)
      (let ((inner (and (< indentation 9) (= (book-below 3) 0))))
        (setq items (concat items
                            (if (or ends (equal items "")) "" (book-pick "" "" "\n"))
                            (book-bullet indentation) (book-pick "" (book-words) (book-words) (book-words)) "\n"
                            (book-times 0 2 (lambda () (book-held (+ indentation (book-pick 1 2 2 4)) drawers)))
                            (if inner (book-list (+ indentation 3) drawers) ""))
              ends (and inner (= (book-below 2) 0)))
        ;; Text of the item below the list in it.
        (when (and inner (not ends))
          (setq items (concat items (book-pick "" "\n") (make-string (+ indentation 2) ?\s) (book-words) "\n")))))))

(defun book-element (depth drawers)
  "An element with blank lines after it; no drawer unless DRAWERS: a closer too many is org-element's opener."
  (concat
   (pcase (book-below (if (< depth 3) (if drawers 14 12) 10))
     ((or 0 1 2) (book-text))
     (3 (book-table))
     (4 (book-times 1 2 (lambda () (book-pick "# a remark\n" "#\n" "  # another\n"))))
     (5 (book-times 1 2 (lambda () (book-pick ": fixed\n" ":\n"))))
     (6 (book-pick "-----\n" "  ----------\n" "----\n"))
     (7 (book-pick "#+title: Book\n" "#+STARTUP: overview\n" "  #+todo: A | B\n" "#+begin_never\n" ":not a drawer:\n"))
     ;; It ends at two blank lines or at text.
     ((or 8 9) (concat (book-list 0 drawers) (book-pick "\n" (concat (book-words) "\n"))))
     ((or 10 11) (book-block depth drawers))
     (_ (book-drawer depth)))
   ;; A keyword right above an element is org-element's affiliated one: a blank line parts them.
   "\n"
   (book-blank)))

(defun book-elements (depth drawers)
  (book-times (if (< depth 2) 1 0) 2 (lambda () (book-element depth drawers))))

(defun book-properties ()
  (concat ":PROPERTIES:\n"
          (book-times 0 4 (lambda () (book-pick ":VIN:      WBAPM5C51BA437588\n" ":REQUEST: R-1\n" ":FUEL:   \n" ":A+: more\n" "  :BOOST: 1.1 bar  \n")))
          ":END:\n"))

(defun book-order ()
  (concat (make-string (1+ (book-below 3)) ?*) " " (book-words) "\n"
          (book-pick "" "" "\n")
          (book-pick "" "SCHEDULED: <2026-03-27 Fri> DEADLINE: <2026-04-27 Mon>\n" "CLOSED: [2026-03-27 Fri]\n")
          (book-pick "" (book-properties) (book-properties) (book-properties))
          (book-blank)
          (book-times 0 4 (lambda () (book-element 0 t)))))

(defun book-write (file seed)
  "Write the book of SEED to FILE."
  (setq book-state seed)
  (let ((book (concat (book-pick "" "# orders\n" "\n\n") (book-elements 0 t))) (order ""))
    (while (< (+ (length book) (length order)) 40000)
      (setq book (concat book order) order (book-order)))
    (write-region book nil file nil 'silent)))

;;; book.el ends here
