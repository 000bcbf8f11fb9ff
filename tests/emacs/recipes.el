;;; recipes.el --- tries the recipes of docs/EMACS.md  -*- lexical-binding: t -*-

;; Loaded in the repository's root, with `orders' on the PATH.

(require 'cl-lib)
(require 'ert)
(require 'flymake)
(require 'org)

;; the recipes as they stand in the document
(with-temp-buffer
  (insert-file-contents "docs/EMACS.md")
  (while (re-search-forward "^```elisp\n" nil t)
    (eval-region (point) (progn (re-search-forward "^```$") (match-beginning 0)))))

(defconst recipes-book "#+TITLE: Orders, bok åtte
* January
** stage 1 map for Škoda :rush:
:PROPERTIES:
:VIN: 1
:END:
** blank line above
DEADLINE: <2026-11-20 Fri>

:PROPERTIES:
:VIN: 2
:END:
** never closed, see other.org:3: warning: x
:PROPERTIES:
:VIN: 3
** a line that is none
:PROPERTIES:
:VIN: 4
  VIN 5
:END:
** no VIN
:PROPERTIES:
:END:
** empty VIN
:PROPERTIES:
:FUEL: 98
:VIN:
:END:
** a drawer below text
rang him

:PROPERTIES:
:VIN: 6
:END:
* Archive
")

(defconst recipes-faults
  '((9 . "blank line above  a blank line stands above the property drawer")
    (14 . "never closed, see other.org:3: warning: x  the property drawer is never closed")
    (19 . "a line that is none  line 19 is no property: VIN 5")
    (22 . "no VIN  no VIN in its drawer")
    (27 . "empty VIN  empty VIN in its drawer")
    (32 . "a drawer below text  no property drawer: "))
  "The lines of `recipes-book' to mend, and how each warning begins.")

(defmacro recipes-in-book (name text &rest body)
  "Runs BODY in a buffer that visits a new file with this NAME and TEXT."
  (declare (indent 2))
  `(let* ((folder (make-temp-file "orders" t))
          (coding-system-for-write 'utf-8)
          (book (expand-file-name ,name folder)))
     (write-region ,text nil book nil 'quiet)
     (unwind-protect
         (with-current-buffer (find-file-noselect book)
           (unwind-protect (progn ,@body)
             (set-buffer-modified-p nil)
             (kill-buffer)))
       (delete-directory folder t))))

(defun recipes-check (found)
  "Whether FOUND, lines with their texts, is what is wrong in `recipes-book'."
  (should (equal (mapcar #'car found) (mapcar #'car recipes-faults)))
  (cl-loop for (_ . text) in found
           for (_ . front) in recipes-faults
           do (should (string-prefix-p front text))))

(defun recipes-next-errors ()
  "The lines that `next-error' stops at in this book, each with its warning's text."
  (with-timeout (20 (error "orders does not end"))
    (while (get-buffer-process "*orders*")
      (accept-process-output nil 0.05)))
  (let ((book (current-buffer)) found)
    (condition-case nil
        (while t
          (next-error)
          (should (eq (window-buffer) book))
          (with-current-buffer "*orders*"
            (should (looking-at ".*?: warning: \\(.*\\)"))
            (let ((text (match-string 1)))
              (push (cons (with-current-buffer book (line-number-at-pos)) text) found))))
      (user-error (nreverse found)))))

(ert-deftest recipes-compile ()
  (dolist (name '("orders.org" "orders - it's Å (1).org" "-2026.org"))
    (recipes-in-book name recipes-book
      (orders-compile)
      (recipes-check (recipes-next-errors)))))

(ert-deftest recipes-compile-anew ()
  (recipes-in-book "a - b.org" "* A\n\n:PROPERTIES:\n:VIN: 1\n:END:\n"
    (orders-compile)
    (should (equal (mapcar #'car (recipes-next-errors)) '(2)))
    (goto-char (point-min))
    (insert "\n")
    (save-buffer)
    (with-current-buffer "*orders*" (recompile))
    (should (equal (mapcar #'car (recipes-next-errors)) '(3)))))

(ert-deftest recipes-compile-saves ()
  (recipes-in-book "good.org" "* A\n\n:PROPERTIES:\n:VIN: 1\n:END:\n"
    (forward-line)
    (delete-char 1)
    (orders-compile)
    (should-not (recipes-next-errors))))

(defun recipes-diagnostics (type)
  "Flymake's diagnostics of this buffer, all of this TYPE: their lines and texts."
  (flymake-start)
  (save-restriction
    (widen)
    (mapcar (lambda (diagnostic)
              (should (eq (flymake-diagnostic-type diagnostic) type))
              (cons (line-number-at-pos (flymake-diagnostic-beg diagnostic))
                    (flymake-diagnostic-text diagnostic)))
            (sort (flymake-diagnostics)
                  (lambda (a b) (< (flymake-diagnostic-beg a) (flymake-diagnostic-beg b)))))))

(ert-deftest recipes-flymake ()
  (recipes-in-book "orders-2026.org" recipes-book
    (should flymake-mode)
    (recipes-check (recipes-diagnostics :warning))
    (flymake-goto-next-error)
    (should (= (line-number-at-pos) 9))))

(ert-deftest recipes-flymake-narrowed ()
  (recipes-in-book "orders.org" recipes-book
    (search-forward "never closed")
    (org-narrow-to-subtree)
    (recipes-check (recipes-diagnostics :warning))
    (should (buffer-narrowed-p))))

(ert-deftest recipes-flymake-follows-the-buffer ()
  (recipes-in-book "orders.org" "* A\n\n:PROPERTIES:\n:VIN: 1\n:END:\n"
    (should (equal (mapcar #'car (recipes-diagnostics :warning)) '(2)))
    (forward-line)
    (delete-char 1)
    (should-not (recipes-diagnostics :warning))))

(ert-deftest recipes-flymake-refused-book ()
  (recipes-in-book "orders.org" (make-string 200000 ?x)
    (should (equal (recipes-diagnostics :error)
                   '((1 . "orders: stdin: the text is longer than 65,536 bytes"))))))

(ert-deftest recipes-flymake-other-files ()
  (recipes-in-book "notes.org" recipes-book
    (should-not flymake-mode)))
