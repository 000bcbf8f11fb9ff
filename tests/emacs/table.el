;;; table.el --- org-element's tree as orgtable prints it  -*- lexical-binding: t; -*-

;; Usage: emacs --batch -Q -l table.el --eval '(table-print "FILE")'
;; Prints a line of eight numbers for each element of FILE: kind, start, end, inner start, inner end, parent's
;; index, detail, line number. Spans are what org-element says, counted in bytes from 0, and line numbers what Emacs
;; says, counted from 0 too. An element of a kind that documents 01 and 02 do not have is printed with kind 0. In one
;; thing the table is document 01's and not org-element's: blank lines at the end of a section or heading are also those
;; of the last in it.

(require 'org)
(require 'org-element)

(defconst table-kinds
  '((org-data 1 0) (headline 2 0) (section 3 0) (planning 4 0) (property-drawer 5 0) (node-property 6 0) (drawer 7 0)
    (quote-block 8 1) (center-block 8 2) (special-block 8 3)
    (comment-block 9 1) (example-block 9 2) (export-block 9 3) (src-block 9 4) (verse-block 9 5)
    (table 10 0) (table-row 11 0) (comment 12 0) (fixed-width 13 0) (horizontal-rule 14 0) (keyword 15 0) (paragraph 16 0)
    (plain-list 17 2) (item 18 0))
  "Kind and detail of each type of element; a headline's, a row's and a list's detail are told by the element.")

(defun table-own-end (element)
  "Where ELEMENT ends without the blank lines after it."
  (save-excursion
    (goto-char (org-element-property :end element))
    (skip-chars-backward " \t\r\n" (org-element-property :begin element))
    (min (1+ (line-end-position)) (point-max))))

(defun table-line-after (position)
  "Where the line after the one at POSITION starts, or the text's end."
  (save-excursion (goto-char position) (forward-line) (point)))

(defun table-line-body (position)
  "The span of the line at POSITION without its indentation and the blanks at its end."
  (save-excursion
    (goto-char position)
    (let ((from (progn (skip-chars-forward " \t") (point))))
      (end-of-line)
      (skip-chars-backward " \t\r" from)
      (cons from (point)))))

(defun table-value (position regexp)
  "The span after the marker that REGEXP matches in the line at POSITION, without blanks at either end."
  (save-excursion
    (goto-char position)
    (let ((to (cdr (table-line-body position))))
      (looking-at regexp)
      (goto-char (match-end 0))
      (skip-chars-forward " \t\r" to)
      (cons (min (point) to) to))))

(defun table-item-inner (item)
  "What ITEM holds: from after its bullet, counter set, check box and the blanks after them to its last line's end."
  (save-excursion
    (goto-char (org-element-property :begin item))
    (looking-at org-list-full-item-re)
    ;; The counter's group is without its bracket.
    (goto-char (cond ((match-end 3)) ((match-end 2) (1+ (match-end 2))) (t (match-end 1))))
    (skip-chars-forward " \t\r")
    (cons (point) (table-own-end item))))

(defun table-between (element)
  "The lines of ELEMENT between its first and its last."
  (save-excursion
    (goto-char (table-own-end element))
    (skip-chars-backward "\n")
    (cons (table-line-after (org-element-property :begin element)) (line-beginning-position))))

(defun table-inner (element)
  "The inner span of ELEMENT, as document 01 has it for its kind."
  (let ((begin (org-element-property :begin element)) (end (table-end element)))
    (pcase (org-element-type element)
      ('org-data (cons (point-min) (point-max)))
      ('section (cons begin end))
      ('headline (cons (table-line-after begin) end))
      ((or 'planning 'horizontal-rule 'table-row) (table-line-body begin))
      ('node-property (table-value begin "[ \t]*:[^ \t\r\n]+:"))
      ('keyword (table-value begin "[ \t]*#\\+[^ \t\r\n]*:"))
      ((or 'property-drawer 'drawer 'quote-block 'center-block 'special-block
           'comment-block 'example-block 'export-block 'src-block 'verse-block)
       (table-between element))
      ('table (cons begin (or (org-element-property :contents-end element) end)))
      ('plain-list (cons begin (org-element-property :contents-end element)))
      ('item (table-item-inner element))
      (_ (cons begin (table-own-end element))))))

(defun table-end (element)
  "Where ELEMENT ends; the last of a section, heading or document ends with it."
  (let ((above (org-element-property :parent element)))
    (cond ((eq (org-element-type element) 'org-data) (point-max))
          ((and (memq (org-element-type above) '(section headline org-data))
                (eq element (car (last (org-element-contents above)))))
           (table-end above))
          (t (org-element-property :end element)))))

(defun table-row (element parent)
  "The eight numbers of ELEMENT, whose parent's record has the index PARENT."
  (let* ((type (org-element-type element))
         (known (or (and (not (eq (org-element-property :type element) 'table.el)) (cdr (assq type table-kinds))) '(0 0)))
         (begin (if (eq type 'org-data) (point-min) (org-element-property :begin element)))
         (inner (table-inner element))
         (detail (pcase type
                   ('headline (org-element-property :level element))
                   ('table-row (if (eq (org-element-property :type element) 'rule) 1 0))
                   ('plain-list (if (eq (org-element-property :type element) 'ordered) 1 2))
                   (_ (nth 1 known)))))
    (list (nth 0 known)
          (1- begin) (1- (table-end element))
          (1- (car inner)) (1- (cdr inner)) parent detail
          (1- (line-number-at-pos begin)))))

(defun table-rows (element parent index)
  "The rows of ELEMENT, which has the index INDEX, and of all that it holds, the last first."
  (let ((rows (list (table-row element parent))))
    (dolist (child (org-element-contents element) rows)
      (unless (stringp child)
        (setq rows (append (table-rows child index (+ index (length rows))) rows))))))

(defun table-print (file)
  "Print the table of FILE."
  (with-temp-buffer
    (insert-file-contents-literally file)
    (set-buffer-multibyte nil)
    (let ((org-inhibit-startup t) (org-todo-keywords nil) (org-list-allow-alphabetical t) (tab-width 8))
      (org-mode)
      (dolist (row (nreverse (table-rows (org-element-parse-buffer 'element) 0 0)))
        (princ (concat (mapconcat #'number-to-string row " ") "\n"))))))

;;; table.el ends here
