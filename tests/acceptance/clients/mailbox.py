"""A mailbox that looks like a real one: mail in ten scripts, with ASCII addresses and dates, and bodies of UTF-8."""

import random
from email.utils import formatdate

SCRIPTS = {
    "French": ["Réunion déplacée à jeudi", "Facture no 4711 réglée, merci", "Photos de la fête d'été", "Re: dîner chez Zoë samedi"],
    "German": ["Menü für Freitag", "Re: Grüße aus Köln", "Schlüsselübergabe, Wohnung 3", "Rechnung über 20 Bücher"],
    "Greek": ["Πρόσκληση για την Παρασκευή", "Re: ώρα άφιξης στην Αθήνα", "Τιμολόγιο 2026", "Καλή χρονιά σε όλους"],
    "Russian": ["Встреча в четверг в 10:00", "Re: Отчёт за ноябрь", "Счёт на оплату", "С днём рождения!"],
    "Arabic": ["دعوة إلى الاجتماع", "Re: تقرير الشهر", "فاتورة رقم 12", "صور من الرحلة"],
    "Hebrew": ["הזמנה לפגישה", "Re: דוח חודשי", "חשבונית 77", "תמונות מהטיול"],
    "Hindi": ["बैठक का निमंत्रण", "Re: मासिक रिपोर्ट", "बिल संख्या 12", "जन्मदिन की शुभकामनाएँ"],
    "Thai": ["เชิญประชุมวันศุกร์", "Re: รายงานประจำเดือน", "ใบแจ้งหนี้ 12", "สวัสดีปีใหม่"],
    "Japanese": ["金曜日の会議について", "Re: 十一月の報告書", "請求書 12 号", "写真を送ります、ご覧ください、昨日の旅行のものです"],
    "Korean": ["금요일 회의 안내", "Re: 월간 보고서", "청구서 12호", "생일 축하해요 🎉"],
}

PEOPLE = ["Ann <ann@example.org>", "bob@example.com", "\"C. D.\" <c.d@mail.example.net>", "eve@example.com (Eve)"]
ASCII_LINES = ["Hello,", "see you on Friday.", "-- ", ".", "..", ".hidden", "> quoted", "", "x" * 900, "Subject: this is no field"]
NOTES = ["Organization: Café Zürich", "Comments: übermorgen gelöscht", "X-Mailer: Écrit 1.0 on a phone"]


def message(rng, number, lines):
    """Subject and octets of a message."""
    subject = f"{rng.choice(lines)} ({number})" if rng.random() < 0.5 else rng.choice(lines)
    header = [
        f"Received: from mx.example.com by mail.example.org; {formatdate(1_790_000_000 + number * 977)}",
        f"Date: {formatdate(1_790_000_000 + number * 977)}",
        f"From: {rng.choice(PEOPLE)}",
        f"To: {rng.choice(PEOPLE)},\r\n\t{rng.choice(PEOPLE)}",
        f"Subject: {subject}",
        f"Message-ID: <{number}.{rng.getrandbits(48):012x}@example.org>",
        "MIME-Version: 1.0",
        "Content-Transfer-Encoding: 8bit",
        *rng.sample(NOTES, rng.choice([0, 0, 1, 2])),
    ]
    body = [rng.choice(lines if rng.random() < 0.5 else ASCII_LINES) for _ in range(rng.randint(0, 30))]
    return subject, "\r\n".join([*header, "", *body, ""]).encode()


def messages(count, seed=6857):
    """So many messages, as many of each script; (subject, octets) each."""
    rng, scripts = random.Random(seed), list(SCRIPTS.values())
    return [message(rng, number, scripts[number % len(scripts)]) for number in range(count)]
